"""Calls of the line writer and the line reader over lent texts: every code and last byte, then seeded ones."""

from lent_text import LentCall, TextPart, line_of
from lines import bytes_to_digits
from random_runs import ODD_CHARACTERS, rng_for, spoilt_line

EVERY_BYTE = range(256)
FURTHEST = 2 ** 64 - 1
KEPT = 0x2E


def kept_text(length):
    return bytes([KEPT] * length)


def write_call(four, text):
    return LentCall("write", TextPart(bytes(text)), tuple(four))


def read_call(text, at):
    return LentCall("read", TextPart(bytes(text)), (at,))


def line(*four):
    return bytes_to_digits(four)


# The same for every seed.

def every_code():
    """Each code alone, then with a last byte that is not 00 and a text that is too short, or no newline."""
    return [call for code in EVERY_BYTE for call in (
        write_call((code, 0x12, 0xEF, 0x00), kept_text(12)),
        write_call((code, 0x01, 0x02, 0x03), kept_text(8)),
        read_call(line(code, 0x12, 0xEF, 0x00) + b"\n04000000\n", 0),
        read_call(line(code, 0x01, 0x02, 0x03), 0))]


def every_last_byte():
    """Each last byte behind each code that is known."""
    return [call for last in EVERY_BYTE for call in (
        write_call((0x01, 0x00, 0x01, last), kept_text(9)),
        write_call((2 + last % 3, 0x00, 0x01, last), kept_text(9)),
        read_call(line(0x01, 0x00, 0x01, last) + b"\n", 0),
        read_call(line(2 + last % 3, 0x00, 0x01, last) + b"\n", 0))]


def every_length():
    """Texts of 0 to 12 bytes for the writer, every place of a text and past it for the reader."""
    text = b"01000100\n\n0200000a\n04000000"
    places = list(range(len(text) + 3)) + [255, 65536, 2 ** 32, 2 ** 63, FURTHEST]
    ended = [read_call(end, at) for end in (b"", b"\n", text + b"\n") for at in places]
    return [write_call(four, kept_text(length)) for length in range(13) for four in (
        (0x01, 0xAB, 0xCD, 0xEF), (0x02, 0xFF, 0xFE, 0x00), (0x03, 0x00, 0x00, 0x01),
        (0x05, 0x00, 0x00, 0x01), (0x80, 0x00, 0x00, 0x01))] + [
            read_call(text, at) for at in places] + ended


def every_character():
    """Each byte as the first and as the last of eight characters, behind other codes, and as a ninth."""
    return [read_call(text, 0) for byte in EVERY_BYTE for text in (
        bytes([byte]) + b"1000100\n", b"0100010" + bytes([byte]) + b"\n", b"01000100" + bytes([byte]),
        b"0500010" + bytes([byte]), b"800" + bytes([byte]) + b"0100\n")]


def fixed_calls():
    groups = (every_length, every_code, every_last_byte, every_character)
    return [call for group in groups for call in group()]


# Seeded ones.

def random_bytes(rng, length):
    some = rng.choice([bytes(EVERY_BYTE), b"0123456789ABCDEF", b"0123456789ABCDEFabcdef\n", b"0\n"])
    return bytes(rng.choice(some) for _ in range(length))


def random_four(rng):
    """Four bytes that are a call for the most part."""
    code = rng.choice([1, 2, 3, 4]) if rng.random() < 0.8 else rng.choice([0, 5, 127, 128, rng.randrange(256)])
    last = 0 if rng.random() < 0.6 else rng.randrange(256)
    return code, rng.randrange(256), rng.randrange(256), last


def random_write(rng):
    length = rng.choice([rng.randint(0, 12), rng.randint(9, 12), rng.randint(9, 60)])
    return write_call(random_four(rng), random_bytes(rng, length))


def random_line(rng):
    """A good line, one in lower case, a spoilt one, or any characters."""
    good, way = line(*random_four(rng)), rng.random()
    if way < 0.5:
        return good
    if way < 0.6:
        return good.lower()
    if way < 0.85:
        return spoilt_line(rng, good)
    return random_bytes(rng, rng.randint(0, 12))


def damaged(rng, text):
    """Bytes changed, put in or taken out."""
    data = bytearray(text)
    for _ in range(rng.randint(1, 3)):
        at = rng.randint(0, len(data))
        data[at:at + rng.randint(0, 2)] = bytes(
            rng.choice(ODD_CHARACTERS + b"\n09AF") for _ in range(rng.randint(0, 2)))
    return bytes(data)


def place_in(rng, text, starts):
    """The start of a line for the most part, any place, the end, or past it."""
    way = rng.random()
    if way < 0.55:
        return rng.choice(starts)
    if way < 0.75:
        return rng.randint(0, len(text))
    return rng.choice([len(text), len(text), len(text) + 1, len(text) + rng.randint(2, 300), FURTHEST])


def random_read(rng):
    if rng.random() < 0.3:
        text = random_bytes(rng, rng.randint(0, 12))
        return read_call(text, place_in(rng, text, [0]))
    lines = [random_line(rng) for _ in range(rng.randint(1, 5))]
    text, starts = b"\n".join(lines) + rng.choice([b"\n", b""]), [0]
    for one in lines[:-1]:
        starts.append(starts[-1] + len(one) + 1)
    if rng.random() < 0.2:
        text = damaged(rng, text)
    return read_call(text, place_in(rng, text, starts))


def line_call_lines(seed, count):
    """The fixed calls first, then seeded ones, COUNT in all, as lines of text."""
    fixed = fixed_calls()
    for number in range(count):
        rng = rng_for("lines", seed, number)
        if number < len(fixed):
            call = fixed[number]
        else:
            call = random_write(rng) if rng.random() < 0.4 else random_read(rng)
        yield line_of(call, lambda: rng.choice(["-", "null"]))
