"""The program `desk` from input bytes to output bytes: document 01, 'Lines'."""

import desk as machine
from desk import MOST_SLOTS, Answer, refused
from lines import (
    Ask, Delete, Ended, MakeCopy, Reader, Receive, Refusal, all_digits, bytes_to_digits,
    digits_to_bytes)
from refusals import ACCEPTED, BAD_LINE, BAD_SHAPE, TOO_LONG, first_refusal
from tables import slot_bytes, why_no_opening

LONGEST_INPUT = 8192
FEWEST_OPENING_DIGITS, MOST_OPENING_DIGITS = 6, 518

CALLS = {MakeCopy: machine.make_copy, Receive: machine.receive,
         Delete: machine.delete, Ask: machine.ask}


def answer_line(answer):
    """Number (1 byte), value (2), posted message as slot bytes (5), and the newline."""
    value = bytes((answer.value >> 8, answer.value & 255))
    return bytes_to_digits(bytes([answer.number]) + value + slot_bytes(answer.message)) + b"\n"


def why_no_opening_line(line):
    return first_refusal(
        (BAD_LINE, lambda: len(line) < FEWEST_OPENING_DIGITS),
        (BAD_LINE, lambda: len(line) > MOST_OPENING_DIGITS),
        (BAD_LINE, lambda: len(line) % 2 == 1),
        (BAD_LINE, lambda: not all_digits(line)),
    )


def open_by_line(line):
    """One byte S, two bytes slot count, then the owners: the answer and the desk, if any."""
    number = why_no_opening_line(line)
    if number:
        return refused(number), None
    sites, high, low, *owners = digits_to_bytes(line)
    slot_count = 256 * high + low
    number = BAD_SHAPE if slot_count > MOST_SLOTS else why_no_opening(sites, owners)
    if number:
        return refused(number), None
    return Answer(ACCEPTED, 0, None), machine.open_desk(sites, owners, slot_count)


def answer_to(desk, call):
    """The answer of the desk to a call as read, refused lines among them."""
    if isinstance(call, Refusal):
        return refused(call.number)
    return CALLS[type(call)](desk, *call)


def run(text):
    """All that `desk` writes for an input."""
    if len(text) > LONGEST_INPUT:
        return answer_line(refused(TOO_LONG))
    reader = Reader(text)
    opening = reader.next_line()
    if opening is None:
        return b""
    answer, desk = open_by_line(opening)
    output = [answer_line(answer)]
    if answer.number != ACCEPTED:
        return b"".join(output)
    call = reader.next_call()
    while not isinstance(call, Ended):
        output.append(answer_line(answer_to(desk, call)))
        call = reader.next_call()
    return b"".join(output)
