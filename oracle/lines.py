"""A call as a line of eight digits, its writer and its reader: document 01, 'Lines'."""

from collections import namedtuple

from refusals import ACCEPTED, BAD_LINE, BAD_SHAPE, PRIVATE_CODE, UNKNOWN_CODE, first_refusal

DIGITS = b"0123456789ABCDEF"
NEWLINE = 0x0A
LINE_DIGITS = 8

MakeCopy = namedtuple("MakeCopy", "sender receiver pointer")
Receive = namedtuple("Receive", "slot")
Delete = namedtuple("Delete", "site pointer")
Ask = namedtuple("Ask", "site pointer")
# What a reader answers besides a call: a refused line, or that the text has ended.
Refusal = namedtuple("Refusal", "number")
Ended = namedtuple("Ended", "")
# The same as C has it: 1 in `ended` where the text has ended, and where the reader stands then.
ReadLine = namedtuple("ReadLine", "number ended call at")
NO_CALL = bytes(4)


def bytes_to_digits(data):
    """Two digits 0-9 A-F for each byte."""
    return bytes(DIGITS[half] for byte in data for half in (byte >> 4, byte & 15))


def all_digits(text):
    """Lower case is no digit."""
    return all(character in DIGITS for character in text)


def digit_value(character):
    """0 to 15; what is no digit stands for 0 here and is refused by its own test."""
    return max(DIGITS.find(character), 0)


def digits_to_bytes(text):
    """The bytes of an even count of digits."""
    values = [digit_value(character) for character in text]
    return bytes(16 * high + low for high, low in zip(values[::2], values[1::2]))


def is_unknown(code):
    """00, or 05 to 7F."""
    return code == 0x00 or 0x05 <= code <= 0x7F


def is_private(code):
    """80 to FF."""
    return code >= 0x80


def why_no_line(line):
    """Eight characters, digits, code, and the last byte, in that order."""
    parts = digits_to_bytes(line).ljust(4, b"\0")
    return first_refusal(
        (BAD_LINE, lambda: len(line) != LINE_DIGITS),
        (BAD_LINE, lambda: not all_digits(line)),
        (UNKNOWN_CODE, lambda: is_unknown(parts[0])),
        (PRIVATE_CODE, lambda: is_private(parts[0])),
        (BAD_LINE, lambda: parts[0] != 0x01 and parts[3] != 0x00),
    )


def call_of_line(line):
    """The call that a line without its newline stands for, or its refusal."""
    number = why_no_line(line)
    if number:
        return Refusal(number)
    code, first, second, last = digits_to_bytes(line)
    if code == 0x01:
        return MakeCopy(first, second, last)
    if code == 0x02:
        return Receive(256 * first + second)
    return Delete(first, second) if code == 0x03 else Ask(first, second)


def bytes_of_call(call):
    """The four bytes of a call."""
    if isinstance(call, MakeCopy):
        return bytes((0x01,) + tuple(call))
    if isinstance(call, Receive):
        return bytes((0x02, call.slot >> 8, call.slot & 255, 0x00))
    code = 0x03 if isinstance(call, Delete) else 0x04
    return bytes((code, call.site, call.pointer, 0x00))


def line_of_call(call):
    """The eight digits of a call."""
    return bytes_to_digits(bytes_of_call(call))


def write_line(call, text):
    """Write a call's line and its newline into lent text (a bytearray); too short gives 1."""
    written = line_of_call(call) + bytes([NEWLINE])
    if len(text) < len(written):
        return BAD_SHAPE
    text[:len(written)] = written
    return ACCEPTED


class Reader:
    """Stands over the lent text and knows how far it has come."""

    def __init__(self, text, position=0):
        self.text = text
        self.position = position

    def next_line(self):
        """The next line without its newline, or None where no character is left."""
        start = self.position
        if start >= len(self.text):
            return None
        end = self.text.find(b"\n", start)
        if end < 0:
            end = len(self.text)
        self.position = min(end + 1, len(self.text))
        return bytes(self.text[start:end])

    def next_call(self):
        """The next call or refusal; at the end, that the text has ended, and it stays there."""
        line = self.next_line()
        return Ended() if line is None else call_of_line(line)


def lent_write(four, text):
    """The call of four bytes, as the reader takes them, at the start of lent text: 15, 16, 14, then 1."""
    call = call_of_line(bytes_to_digits(four))
    return call.number if isinstance(call, Refusal) else write_line(call, text)


def lent_read(text, at):
    """What a reader that stands at a place answers, and where it stands then."""
    reader = Reader(text, at)
    call = reader.next_call()
    if isinstance(call, Ended):
        return ReadLine(ACCEPTED, 1, NO_CALL, reader.position)
    if isinstance(call, Refusal):
        return ReadLine(call.number, 0, NO_CALL, reader.position)
    return ReadLine(ACCEPTED, 0, bytes_of_call(call), reader.position)
