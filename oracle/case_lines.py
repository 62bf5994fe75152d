"""Cases of malformed lines, of every refusal, and of the order of tests."""

from case_parts import OPENED, THREE_SITES, accepted, case, lines, refusal

FIRST_COPY = accepted(0, "0100010000")


def malformed(name, shows, *texts):
    """Lines that all give 14, then one that shows that nothing has happened."""
    return case("line-" + name, shows, lines(THREE_SITES, *texts, "01000100"),
                [OPENED] + [refusal(14)] * len(texts) + [FIRST_COPY])


def malformed_lines():
    return [
        malformed("7-characters", "seven characters give 14", "0100010", "0500000", "8000000"),
        malformed("9-characters", "nine characters give 14", "010001000", "050000000", "800000000"),
        malformed("other-lengths", "1, 2, 4, 6, 10, 16 and 500 characters give 14", "0", "01", "0100",
                  "010001", "0100010000", "0100010001000100", "0" * 500),
        malformed("lower-case", "lower case is no digit", "0100010a", "010001b0", "01000c00", "0100d000",
                  "010e0000", "01f00000", "0a000000", "ff000000"),
        malformed("space", "a space is no digit, at either end or within", " 1000100", "0100010 ",
                  "0100 100",
                  " 01000100", "01000100 "),
        malformed("tab", "a tab is no digit", "0100010\t", "01000100\t"),
        malformed("crlf", "CR LF: the carriage return is a ninth character", "01000100\r", "04000000\r",
                  "\r"),
        malformed("cr-within", "a carriage return among eight characters is no digit", "0100010\r",
                  "010\r0100"),
        malformed("nul", "a NUL byte is no digit and ends nothing", "0100010\x00", "\x0001000100",
                  "01000100\x00", "\x00" * 8),
        malformed("high-bytes", "bytes above 7F are no digits", "0100010\xb0", "\xff" * 8, "\x80\x81000000",
                  "\xc3\x80000000"),
        malformed("neighbours", "the characters beside 0, 9, A and F are no digits", "/1000100", ":1000100",
                  "@1000100", "G1000100", "0100010/", "0100010:", "0100010@", "0100010G", "0100010`"),
        malformed("other-line-ends", "only newline ends a line: not VT, FF, NEL or CR",
                  "01000100\x0b01000100",
                  "01000100\x0c01000100", "01000100\x8501000100", "01000100\r01000100"),
        malformed("empty", "an empty line gives 14", "", "", ""),
        malformed("signs", "signs, prefixes and separators are no digits", "+1000100", "-1000100",
                  "0x000100",
                  "01_00_10", "1,0,1,00"),
        malformed("last-byte", "codes 02 to 04 end in 00", "02000001", "02000010", "020000FF", "03010001",
                  "030100FF", "04000001", "040000F0")]


def line_order():
    return [
        case("order-line", "length, digits, code, last byte: the first that breaks is given",
             lines(THREE_SITES, "0500001", "05000001", "FF00001", "FF000001", "0500000g", "FF00000g",
                   "00000001", "7F0000FF", "800000FF", "0g000000", "020000g1", "05000000", "80000000"),
             [OPENED, refusal(14), refusal(15), refusal(14), refusal(16), refusal(14), refusal(14),
              refusal(15), refusal(15), refusal(16), refusal(14), refusal(14), refusal(15), refusal(16)]),
        case("line-goes-on", "after a refused line the next is read from past its newline",
             lines(THREE_SITES, "01000100", "x", "02000000", "0" * 100, "04000000", "", "03010000"),
             [OPENED, FIRST_COPY, refusal(14), accepted(0), refusal(14), accepted(0), refusal(14),
              accepted(0, "0201000000")])]


def answer_of_code(code):
    """Each code with three bytes 00, on a desk of three sites that was just opened."""
    if code == 0 or 5 <= code <= 0x7F:
        return refusal(15)
    if code >= 0x80:
        return refusal(16)
    return {1: refusal(4), 2: refusal(8), 3: refusal(11), 4: accepted(1)}[code]


def answer_of_last_character(byte):
    """0100010 and one more character: pointer 0, a pointer too large, or no digit."""
    if chr(byte) == "0":
        return None
    return refusal(3) if chr(byte) in "123456789ABCDEF" else refusal(14)


def every_byte():
    others = [byte for byte in range(256) if byte != 0x0A and byte != 0x30]
    return [
        case("line-every-code", "all 256 codes: 15 for 00 and 05 to 7F, 16 for 80 to FF",
             lines(THREE_SITES, *("%02X000000" % code for code in range(256))),
             [OPENED] + [answer_of_code(code) for code in range(256)]),
        case("line-every-character", "all characters but newline and 0 as the last of a make copy",
             lines(THREE_SITES, *("0100010" + chr(byte) for byte in others)),
             [OPENED] + [answer_of_last_character(byte) for byte in others]),
        case("line-every-last-byte", "all 256 last bytes of a receive: only 00 is a call",
             lines(THREE_SITES, *("020000%02X" % byte for byte in range(256))),
             [OPENED, refusal(8)] + [refusal(14)] * 255),
        case("line-every-pointer", "all 256 pointers of a make copy where G = 2",
             lines("0300040000", *("010102%02X" % byte for byte in range(256))),
             [OPENED, refusal(5), refusal(5)] + [refusal(3)] * 254)]


def refusals_of_tables():
    """One case for each refusal that `desk` can give, named by its number: 1 to 9."""
    return [
        case("refusal-01-bad-shape", "S above 64", lines("41000400"), [refusal(1)]),
        case("refusal-02-bad-table", "an owner not below S", lines("03000403"), [refusal(2)]),
        case("refusal-03-bad-name", "each site, pointer and slot that is too large, at and past its limit",
             lines(THREE_SITES, "01030100", "01000300", "01000101", "01FF0100", "0100FF00", "010001FF",
                   "02000400", "02FFFF00", "03030000", "03010100", "04030000", "04000100", "04FFFF00"),
             [OPENED] + [refusal(3)] * 13),
        case("refusal-04-same-site", "make copy from a site to itself",
             lines(THREE_SITES, "01000000", "01020200"),
             [OPENED, refusal(4), refusal(4)]),
        case("refusal-05-not-held", "make copy and delete where the cell is 0",
             lines(THREE_SITES, "01010000", "01020100", "03010000"), [OPENED] + [refusal(5)] * 3),
        case("refusal-07-pool-full", "make copy and delete where no slot is empty, and again where one is",
             lines("03000200", "01000100", "02000000", "01000200", "01000200", "01000200", "03010000",
                   "02000000", "03010000"),
             [OPENED, FIRST_COPY, accepted(0), accepted(0, "0100020000"), accepted(1, "0100020000"),
              refusal(7), refusal(7), accepted(0), accepted(0, "0201000000")]),
        case("refusal-08-empty-slot", "receive of an empty slot, before and after it held a message",
             lines(THREE_SITES, "02000000", "02000300", "01000100", "02000000", "02000000"),
             [OPENED, refusal(8), refusal(8), FIRST_COPY, accepted(0), refusal(8)]),
        case("refusal-09-held", "a DEC stays while an INC_DEC from its sender to its receiver is in flight",
             lines(THREE_SITES, "01000100", "02000000", "01010200", "02000000", "03020000", "02000100",
                   "02000000", "02000100"),
             [OPENED, FIRST_COPY, accepted(0), accepted(0, "0101020000"), accepted(0, "0302000100"),
              accepted(1, "0202000000"), refusal(9), accepted(0, "0200010000"), accepted(1)])]


def refusals_of_sites_and_lines():
    """The same for 11 to 17."""
    return [
        case("refusal-11-is-owner", "delete at the owner", lines(THREE_SITES, "03000000"),
             [OPENED, refusal(11)]),
        case("refusal-12-still-counted", "delete while the site's counter is not 0, and again when it is",
             lines(THREE_SITES, "01000100", "02000000", "01010000", "03010000", "02000000", "03010000",
                   "02000000", "03010000"),
             [OPENED, FIRST_COPY, accepted(0), accepted(0, "0101000000"), refusal(12),
              accepted(0, "0200010000"), refusal(12), accepted(0), accepted(0, "0201000000")]),
        case("refusal-13-not-owner", "ask at a site that is not the owner, whether it holds or not",
             lines(THREE_SITES, "04010000", "01000100", "02000000", "04010000", "04000000"),
             [OPENED, refusal(13), FIRST_COPY, accepted(0), refusal(13), accepted(0)]),
        case("refusal-14-bad-line", "a line that is not eight digits", lines(THREE_SITES, "hello"),
             [OPENED, refusal(14)]),
        case("refusal-15-unknown-code", "codes 00, 05 and 7F", lines(THREE_SITES, "00000000", "05000000",
                                                                  "7FFFFFFF"),
             [OPENED] + [refusal(15)] * 3),
        case("refusal-16-private-code", "codes 80 and FF", lines(THREE_SITES, "80000000", "FFFFFFFF"),
             [OPENED] + [refusal(16)] * 2),
        case("refusal-17-too-long", "above 8,192 bytes: that answer line is all", b"03000400\n" * 2000,
             [refusal(17)])]


def call_orders():
    return [
        case("order-make-copy", "3 before 4; 4 before 5; 4 and 5 before 7",
             lines("03000000", "01030300", "01000001", "01010100", "01000000", "01010200", "01000100"),
             [OPENED, refusal(3), refusal(3), refusal(4), refusal(4), refusal(5), refusal(7)]),
        case("order-delete", "3 before 11 and 5; 11 before 12 and 7; 5 before 7; 12 before 7; then 7",
             lines("03000200", "01000100", "02000000", "01010000", "01010000", "03000000", "03010000",
                   "03020000", "03030000", "03000100", "02000000", "02000100", "02000000", "02000100",
                   "01000200", "01000200", "03010000", "03000000", "03020000"),
             [OPENED, FIRST_COPY, accepted(0), accepted(0, "0101000000"), accepted(1, "0101000000"),
              refusal(11), refusal(12), refusal(5), refusal(3), refusal(3), accepted(0, "0200010000"),
              accepted(1, "0200010000"), accepted(0), accepted(1), accepted(0, "0100020000"),
              accepted(1, "0100020000"), refusal(7), refusal(11), refusal(5)]),
        case("order-ask", "3 before 13", lines(THREE_SITES, "04030000", "04010100", "04010000"),
             [OPENED, refusal(3), refusal(3), refusal(13)])]


def all_cases():
    groups = (malformed_lines, line_order, every_byte, refusals_of_tables, refusals_of_sites_and_lines,
              call_orders)
    return [found for group in groups for found in group()]
