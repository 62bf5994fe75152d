"""The forms of document 01, 'Lines': an opening, a call, an answer, a message; and where a line breaks its form."""

from collections import namedtuple

DIGITS = b"0123456789ABCDEF"
LINE_DIGITS = 8
ANSWER_DIGITS = 16
FEWEST_OPENING_DIGITS, MOST_OPENING_DIGITS = 6, 518
LONGEST_INPUT = 8192

COPY, DEC, INC_DEC = 1, 2, 3
KINDS = {COPY: "COPY", DEC: "DEC", INC_DEC: "INC_DEC"}

OPEN, MAKE_COPY, RECEIVE, DELETE, ASK = "open", "copy", "receive", "delete", "ask"

Opening = namedtuple("Opening", "sites slots owners")
# What a call does not name is None.
Call = namedtuple("Call", "verb site to pointer slot")
Answer = namedtuple("Answer", "number value message")

# Each code: the verb, the bytes that must be 00, and what the three bytes after the code name. A new code is one more row.
CODES = {
    1: (MAKE_COPY, (), lambda a, b, c: Call(MAKE_COPY, a, b, c, None)),
    2: (RECEIVE, (3,), lambda a, b, c: Call(RECEIVE, None, None, None, 256 * a + b)),
    3: (DELETE, (3,), lambda a, b, c: Call(DELETE, a, None, b, None)),
    4: (ASK, (3,), lambda a, b, c: Call(ASK, a, None, b, None)),
}


class Message:
    """A posted message: its slot bytes, the slot, the line that posted it and, once received, the line that did."""

    __slots__ = ("kind", "sender", "receiver", "third", "pointer", "slot", "posted", "received")

    def __init__(self, kind, sender, receiver, third, pointer):
        self.kind, self.sender, self.receiver, self.third, self.pointer = kind, sender, receiver, third, pointer
        self.slot = self.posted = self.received = None

    def words(self):
        third = " (third %d)" % self.third if self.kind == INC_DEC else ""
        return "%s %d→%d%s" % (KINDS[self.kind], self.sender, self.receiver, third)

    def where(self):
        return "%s in slot %d, posted at line %d" % (self.words(), self.slot, self.posted)


def lines_of(text):
    """The lines without their newlines; where no character is left there is no line."""
    lines = text.split(b"\n")
    return lines[:-1] if lines[-1] == b"" else lines


def quoted(line, place=None, room=24):
    """A line between quotes, its odd bytes escaped; a long one as the part around the place that matters."""
    begin = 0 if place is None or len(line) <= room else max(0, min(place - room // 2, len(line) - room))
    part = line[begin:begin + room]
    shown = "".join(chr(byte) if 32 <= byte < 127 and byte not in b'"\\' else "\\x%02X" % byte for byte in part)
    return '"%s%s%s"' % ("…" if begin else "", shown, "…" if begin + room < len(line) else "")


def odd_character(line):
    """Which character is the first that is no digit, in words, and its place; None where all are digits."""
    for place, byte in enumerate(line):
        if byte not in DIGITS:
            named = {9: "a tab", 13: "a carriage return", 32: "a space"}.get(byte)
            shown = named or quoted(bytes([byte]))
            lower = ": lower case is no digit" if byte in b"abcdef" else ", no digit"
            return "character %d is %s%s" % (place + 1, shown, lower), place
    return None


def quote_of_opening(line):
    """An opening line quoted with what breaks its form, or None."""
    odd = odd_character(line)
    if odd:
        return "%s: %s" % (quoted(line, odd[1]), odd[0])
    if not FEWEST_OPENING_DIGITS <= len(line) <= MOST_OPENING_DIGITS:
        return "%s: %d digits, and an opening has %d to %d" % (
            quoted(line), len(line), FEWEST_OPENING_DIGITS, MOST_OPENING_DIGITS)
    if len(line) % 2:
        return "%s: %d digits, an odd count" % (quoted(line, len(line) - 1), len(line))
    return None


def break_of_call(line):
    """What breaks the form of a call line and its place, or None; an unknown code is no break of the form."""
    if len(line) != LINE_DIGITS:
        odd = odd_character(line)
        more = "; " + odd[0] if odd else ""
        counted = "empty" if not line else "%d character%s" % (len(line), "s"[:len(line) != 1])
        return "%s, and a call has %d%s" % (counted, LINE_DIGITS, more), odd[1] if odd else LINE_DIGITS
    odd = odd_character(line)
    if odd:
        return odd
    parts = bytes.fromhex(line.decode())
    for place in CODES.get(parts[0], (None, ()))[1]:
        if parts[place]:
            return "byte %d is %02X, and code %02X has 00 there" % (place + 1, parts[place], parts[0]), 2 * place
    return None


def quote_of_call(line):
    """A call line quoted with what breaks its form, or None."""
    broken = break_of_call(line)
    return broken and "%s: %s" % (quoted(line, broken[1]), broken[0])


def opening_of(line):
    """The opening that a line writes, or None."""
    if quote_of_opening(line):
        return None
    sites, high, low, *owners = bytes.fromhex(line.decode())
    return Opening(sites, 256 * high + low, owners)


def call_of(line):
    """The call that a line writes, or None."""
    if break_of_call(line):
        return None
    code, *parts = bytes.fromhex(line.decode())
    return CODES[code][2](*parts) if code in CODES else None


def quote_of_answer(line):
    """An answer line quoted with what breaks its form, or None."""
    odd = odd_character(line)
    if odd:
        return "%s: %s" % (quoted(line, odd[1]), odd[0])
    if len(line) != ANSWER_DIGITS:
        return "%s: %d digits, and an answer has %d" % (quoted(line), len(line), ANSWER_DIGITS)
    return None


def answer_of(line):
    """The answer that a line of 16 digits writes: number (1 byte), value (2), posted message (5); no message is None."""
    number, high, low, *slot = bytes.fromhex(line.decode())
    return Answer(number, 256 * high + low, Message(*slot) if any(slot) else None)
