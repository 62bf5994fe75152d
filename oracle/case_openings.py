"""Cases of the first line and of whole inputs."""

from case_parts import OPENED, THREE_SITES, accepted, case, lines, refusal

AFTER = ("01000100", "04000000")


def opening(name, shows, line, answer):
    """An opening line that is refused, followed by two good calls that must go unanswered."""
    return case("opening-" + name, shows, lines(line, *AFTER), [answer])


def of_length(digits):
    """An opening line of that many digits: S = 3, 4 slots, every owner 0."""
    return (THREE_SITES[:6] + "0" * 514)[:digits]


def lengths():
    refused = [opening("%d-digits" % digits, "an opening line of %d digits gives 14" % digits,
                       of_length(digits), refusal(14)) for digits in (1, 2, 4, 5, 7, 517, 519, 520)]
    opened = [
        case("opening-6-digits", "6 digits open with G = 0; make copy and ask then give 3",
             lines("030004", *AFTER), [OPENED, refusal(3), refusal(3)]),
        case("opening-8-digits", "8 digits open with G = 1",
             lines(of_length(8), *AFTER), [OPENED, accepted(0, "0100010000"), accepted(0)]),
        case("opening-516-digits", "516 digits open with G = 255: pointer FE is known, FF is not",
             lines(of_length(516), "010001FE", "010001FF"),
             [OPENED, accepted(0, "01000100FE"), refusal(3)]),
        case("opening-518-digits", "518 digits open with G = 256: pointer FF is known",
             lines(of_length(518), "010001FF", "0400FF00", "02000000", "0301FF00", "02000000", "0400FF00"),
             [OPENED, accepted(0, "01000100FF"), accepted(0), accepted(0),
              accepted(0, "02010000FF"), accepted(0), accepted(1)])]
    return refused + opened


def characters():
    spoilt = [
        ("lower-case", "a lower case digit in the opening gives 14", "03000a00"),
        ("space", "a space in the opening gives 14", "0300 400"),
        ("leading-space", "a space before the opening gives 14", " 3000400"),
        ("crlf", "CR LF after a good opening gives 14: nine characters", THREE_SITES + "\r"),
        ("cr-even", "CR in an opening of even length gives 14: no digit", THREE_SITES + "0\r"),
        ("nul", "a NUL byte in the opening gives 14", "030004\x00\x00"),
        ("high-bytes", "bytes above 7F in the opening give 14", "030004\xb0\xff"),
        ("letter-g", "G in the opening gives 14", "0300040G"),
        ("colon", "the character after 9 gives 14", "0300040:")]
    return [opening(name, shows, line, refusal(14)) for name, shows, line in spoilt]


def shapes():
    return [
        opening("s-0", "S = 0 gives 1", "00000400", refusal(1)),
        opening("s-65", "S = 65 gives 1", "41000400", refusal(1)),
        opening("s-255", "S = 255 gives 1", "FF000400", refusal(1)),
        opening("slots-1025", "1,025 slots give 1", "03040100", refusal(1)),
        opening("slots-65535", "65,535 slots give 1", "03FFFF00", refusal(1)),
        opening("s-0-no-pointer", "S = 0 with G = 0 gives 1", "000000", refusal(1)),
        opening("owner-s", "an owner equal to S gives 2", "0300040003", refusal(2)),
        opening("owner-255", "an owner of 255 gives 2", "030004FF00", refusal(2)),
        opening("last-owner", "the last of 256 owners not below S gives 2",
                of_length(516) + "03", refusal(2)),
        opening("shape-before-owner", "S = 65 with an owner above it gives 1, not 2",
                "410004FF", refusal(1)),
        opening("slots-before-owner", "1,025 slots with an owner not below S give 1, not 2",
                "03040103", refusal(1)),
        opening("line-before-shape", "an odd count with S = 0 gives 14, not 1", "0000040", refusal(14))]


def accepted_edges():
    return [
        case("edge-s-1", "S = 1 opens; every make copy gives 3 or 4; ask says 1, delete 11",
             lines("01000100", "01000000", "01000100", "01010000", "01010100", "01000001", "04000000",
                   "03000000", "02000000", "02000100"),
             [OPENED, refusal(4), refusal(3), refusal(3), refusal(3), refusal(3), accepted(1),
              refusal(11), refusal(8), refusal(3)]),
        case("edge-g-0", "G = 0 opens; every call that names a pointer gives 3; slots are there",
             lines("030004", "01000100", "010001FF", "01000000", "03010000", "04000000", "02000300",
                   "02000400"),
             [OPENED, refusal(3), refusal(3), refusal(3), refusal(3), refusal(3), refusal(8), refusal(3)]),
        case("edge-s-64", "S = 64 opens; site 63 is known and 64 is not",
             lines("4000043F", "013F0000", "01003F00", "013F4000", "01403F00", "02000000", "04400000",
                   "043F0000", "03000000"),
             [OPENED, accepted(0, "013F000000"), refusal(5), refusal(3), refusal(3), accepted(0),
              refusal(3), accepted(0), accepted(0, "02003F0000")]),
        case("edge-slots-0", "a pool of 0 slots gives 7 on an otherwise good make copy",
             lines("03000000", "01000100", "01000000", "01010000", "02000000", "04000000"),
             [OPENED, refusal(7), refusal(4), refusal(5), refusal(3), accepted(1)]),
        case("edge-slots-1024", "1,024 slots open; slot 1,023 is there and 1,024 is not",
             lines("03040000", "0203FF00", "02040000", "02FFFF00", "01000100"),
             [OPENED, refusal(8), refusal(3), refusal(3), accepted(0, "0100010000")])]


def refused_openings():
    good = lines(THREE_SITES, *AFTER)
    return [
        case("stop-after-14",
             "after an opening refused with 14 nothing is answered, not even a good opening",
             lines("0300040") + good, [refusal(14)]),
        case("stop-after-1", "after an opening refused with 1 nothing is answered",
             lines("00000400") + good,
             [refusal(1)]),
        case("stop-after-2", "after an opening refused with 2 nothing is answered",
             lines("03000409") + good,
             [refusal(2)]),
        case("stop-after-empty-opening", "an empty first line is an opening of 0 digits: 14, and stop",
             b"\n" + good, [refusal(14)])]


def exact_input(size, last_newline):
    """Good lines of exactly that many bytes: 3 sites, 1,024 slots, copies and receives in turn."""
    room = size + (not last_newline)
    calls = next(count for count in range(room // 9, 0,
                                          -1) if (room - 9 * count) % 2 and room - 9 * count > 8)
    digits = room - 9 * calls - 1
    owners = ("000102" * 20)[:digits - 6]
    turns = ("01000100", "02000000", "01010200", "02000000", "01010200", "02000100", "03020000")
    text = lines("030400" + owners, *(turns[number % len(turns)] for number in range(calls)))
    return text if last_newline else text[:-1]


def sizes():
    full = exact_input(8192, True)
    return [
        case("input-0-bytes", "empty input writes nothing", b"", []),
        case("input-1-newline", "one newline is an opening of 0 digits: 14", b"\n", [refusal(14)]),
        case("input-1-digit", "one digit is an opening of 1 digit: 14", b"0", [refusal(14)]),
        case("input-1-nul", "one NUL byte: 14", b"\0", [refusal(14)]),
        case("input-8192", "8,192 bytes with the last newline are run", full),
        case("input-8192-no-newline", "8,192 bytes without the last newline are run",
             exact_input(8192, False)),
        case("input-8193", "8,193 bytes with the last newline give 17 alone", exact_input(8193, True),
             [refusal(17)]),
        case("input-8193-no-newline", "8,193 bytes without the last newline give 17 alone",
             exact_input(8193, False), [refusal(17)]),
        case("input-8193-one-more", "one newline more than 8,192 bytes gives 17 alone", full + b"\n",
             [refusal(17)]),
        case("input-8192-newlines", "8,192 newlines: the first is an opening of 0 digits, and stop",
             b"\n" * 8192, [refusal(14)]),
        case("input-8193-newlines", "8,193 newlines give 17, which comes before 14", b"\n" * 8193,
             [refusal(17)]),
        case("input-8192-no-line", "8,192 digits without a newline: too long an opening, 14", b"0" * 8192,
             [refusal(14)]),
        case("input-greatest-output", "6 digits and 8,186 newlines: 8,186 answer lines, the most there are",
             b"030000" + b"\n" * 8186, [OPENED] + [refusal(14)] * 8185)]


def ends():
    return [
        case("end-opening-no-newline", "an opening without its newline opens", b"03000400", [OPENED]),
        case("end-opening-newline", "an opening with its newline opens, and no line follows",
             b"03000400\n", [OPENED]),
        case("end-one-empty-line", "a newline more is one empty line: 14", b"03000400\n\n",
             [OPENED, refusal(14)]),
        case("end-call-no-newline", "a last call without its newline is answered",
             b"03000400\n01000100", [OPENED, accepted(0, "0100010000")]),
        case("end-short-no-newline", "a last line of 7 characters without its newline gives 14",
             b"03000400\n0100010", [OPENED, refusal(14)]),
        case("end-zero-line", "a last line of 9 characters without its newline gives 14",
             b"03000400\n010001000", [OPENED, refusal(14)])]


def all_cases():
    groups = (lengths, characters, shapes, accepted_edges, refused_openings, sizes, ends)
    return [found for group in groups for found in group()]
