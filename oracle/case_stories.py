"""Cases of what the machine does: document 01's short cuts that are wrong, and longer runs."""

from case_parts import OPENED, THREE_SITES, accepted, case, lines, refusal
from desk import open_desk
from lines import line_of_call
from program import answer_to
from random_runs import Walk, numbered_input, opening_digits, rng_for

FIRST_COPY = accepted(0, "0100010000")

# Input and output of document 01, 'Lines', to the byte.
FOURTEEN_IN = """03000400 01000100 02000000 01010200 02000000 03020000 02000100
04000000 02000000 02000100 02000000 03010000 02000000 04000000"""
FOURTEEN_OUT = """0000000000000000 0000000100010000 0000000000000000 0000000101020000
0000000302000100 0000010202000000 0900000000000000 0000000000000000 0000000200010000
0000010000000000 0000000000000000 0000000201000000 0000000000000000 0000010000000000"""


def fourteen():
    return [case("fourteen", "the fourteen lines of document 01 and its fourteen answers",
                 lines(*FOURTEEN_IN.split()), FOURTEEN_OUT.split())]


def copies():
    return [
        case("copy-to-owner", "a COPY to the owner posts a DEC back to its sender",
             lines(THREE_SITES, "01000100", "02000000", "01010000", "02000000", "03010000", "02000000",
                   "03010000", "02000000", "04000000"),
             [OPENED, FIRST_COPY, accepted(0), accepted(0, "0101000000"), accepted(0, "0200010000"),
              refusal(12), accepted(0), accepted(0, "0201000000"), accepted(0), accepted(1)]),
        case("copy-first-from-another", "a first COPY from a site that is not the owner posts an INC_DEC",
             lines(THREE_SITES, "01000100", "02000000", "01010200", "02000000", "03010000", "04000000",
                   "02000000", "02000000", "03010000", "02000000", "04000000"),
             [OPENED, FIRST_COPY, accepted(0), accepted(0, "0101020000"), accepted(0, "0302000100"),
              refusal(12), accepted(0), accepted(0, "0200010000"), accepted(0),
              accepted(0, "0201000000"), accepted(0), accepted(0)]),
        case("copy-twice", "a second COPY from the owner to a holder posts a DEC to the owner",
             lines(THREE_SITES, "01000100", "01000100", "02000100", "02000000", "04000000", "02000000",
                   "03010000", "02000000", "04000000"),
             [OPENED, FIRST_COPY, accepted(1, "0100010000"), accepted(1), accepted(0, "0201000000"),
              accepted(0), accepted(0), accepted(0, "0201000000"), accepted(0), accepted(1)]),
        case("late-copy", "the owner's ask says 0 until the late copy has arrived and is given up",
             lines(THREE_SITES, "01000100", "02000000", "01010200", "03010000", "04000000", "02000000",
                   "04000000", "02000000", "02000000", "03010000", "02000000", "04000000", "03020000",
                   "04000000", "02000000", "04000000"),
             [OPENED, FIRST_COPY, accepted(0), accepted(0, "0101020000"), refusal(12), accepted(0),
              accepted(0, "0302000100"), accepted(0), accepted(0, "0200010000"), accepted(0),
              accepted(0, "0201000000"), accepted(0), accepted(0), accepted(0, "0202000000"),
              accepted(0), accepted(0), accepted(1)])]


def helds():
    start = ("01000100", "02000000", "01010200", "02000000")
    answers = [OPENED, FIRST_COPY, accepted(0), accepted(0, "0101020000"), accepted(0, "0302000100")]
    return [
        case("held-by-newer", "a DEC older than the INC_DEC of a fresh first copy is held too",
             lines("03000500", "01000200", "02000000", "03020000", "01000100", "02000100", "01010200",
                   "02000100", "02000000", "02000100", "02000000"),
             [OPENED, accepted(0, "0100020000"), accepted(0), accepted(0, "0202000000"),
              accepted(1, "0100010000"), accepted(1), accepted(1, "0101020000"),
              accepted(1, "0302000100"), refusal(9), accepted(1, "0200010000"), accepted(0)]),
        case("held-not-by-pointer", "a DEC of another sender for the same pointer is not held",
             lines(THREE_SITES, *start, "01000100", "02000100", "02000100"),
             answers + [accepted(1, "0100010000"), accepted(1, "0201000000"), accepted(1)]),
        case("held-not-by-other-pointer", "an INC_DEC for another pointer does not hold a DEC",
             lines("0300040000", *start, "01000201", "02000100", "03020100", "02000100"),
             answers + [accepted(1, "0100020001"), accepted(1), accepted(1, "0202000001"), accepted(1)]),
        case("held-not-by-receiver", "a DEC to a site that the INC_DEC does not go to is not held",
             lines(THREE_SITES, *start, "01010200", "02000100", "02000100"),
             answers + [accepted(1, "0101020000"), accepted(1, "0202010000"), accepted(1)]),
        case("held-any-third", "the third site has no part in Held: with 1 and with 3, the DEC is held",
             lines("04000600", *start, "01000300", "02000100", "03020000", "02000100", "01030200",
                   "02000200", "02000000", "02000100", "02000200", "02000100"),
             answers + [accepted(1, "0100030000"), accepted(1), accepted(1, "0202000000"), refusal(9),
                        accepted(2, "0103020000"), accepted(2, "0302000300"), accepted(0, "0200010000"),
                        refusal(9), accepted(2, "0200030000"), accepted(1)])]


def pools():
    many = ["010001%02X" % (number % 2) for number in range(300)]
    return [
        case("slot-lowest", "a posted message goes to the lowest empty slot, a reply to the handled one",
             lines("03000300", "01000100", "01000100", "01000100", "02000100", "01000200", "02000000",
                   "02000200", "02000200", "01000200", "02000000", "01000200"),
             [OPENED, FIRST_COPY, accepted(1, "0100010000"), accepted(2, "0100010000"), accepted(1),
              accepted(1, "0100020000"), accepted(0, "0201000000"), accepted(2, "0201000000"),
              accepted(2), accepted(2, "0100020000"), accepted(0), accepted(0, "0100020000")]),
        case("slot-high-byte", "300 copies, then receives of slots 0, 255, 256 and 299",
             lines("0304000000", *many, "02012B00", "02010000", "0200FF00", "02000000", "02012C00",
                   "02012B00", "01000100"),
             [OPENED] + [accepted(number, "01000100%02X" % (number % 2)) for number in range(300)]
             + [accepted(299), accepted(256), accepted(255, "0201000001"), accepted(0, "0201000000"),
                refusal(8), refusal(8), accepted(256, "0100010000")]),
        case("pool-of-one", "a pool of one slot: one message at a time",
             lines("03000100", "01000100", "01000200", "02000000", "01010200", "03010000", "02000000",
                   "01000200", "02000000", "02000000", "03020000", "02000000", "03010000", "02000000",
                   "04000000"),
             [OPENED, FIRST_COPY, refusal(7), accepted(0), accepted(0, "0101020000"), refusal(12),
              accepted(0, "0302000100"), refusal(7), accepted(0, "0200010000"), accepted(0),
              accepted(0, "0202000000"), accepted(0), accepted(0, "0201000000"), accepted(0),
              accepted(1)])]


def pointers():
    return [
        case("pointers-apart", "two pointers of two owners do not touch each other",
             lines("0300080001", "01000100", "01010001", "02000000", "02000100", "04000000", "04010100",
                   "03010000", "03000100", "03010100", "02000000", "04000000", "04010100", "02000100",
                   "04010100"),
             [OPENED, FIRST_COPY, accepted(1, "0101000001"), accepted(0), accepted(1), accepted(0),
              accepted(0), accepted(0, "0201000000"), accepted(1, "0200010001"), refusal(11),
              accepted(0), accepted(1), accepted(0), accepted(1), accepted(1)]),
        case("ask-changes-nothing", "ask between all other calls leaves them as they were",
             lines(THREE_SITES,
                   *(text for line in FOURTEEN_IN.split()[1:] for text in ("04000000", line))))]


def random_cases():
    """Seeded inputs kept for good; their opening shapes differ."""
    return [case("random-%02d" % number, "random input %d of seed stored: calls of every kind" % number,
                 numbered_input("stored", number)[0]) for number in range(8)]


def walk_on_largest():
    """8,192 bytes over S = 64, G = 255 and 1,024 slots; the last line is cut short."""
    rng = rng_for("stored", "largest")
    owners = bytes(rng.randrange(64) for _ in range(255))
    desk = open_desk(64, owners, 1024)
    walk, text = Walk(rng, desk), opening_digits(64, 1024, owners) + b"\n"
    while len(text) < 8192:
        call = walk.next_call()
        answer_to(desk, call)
        text += line_of_call(call) + b"\n"
    return text[:8192]


def largest():
    return [case("input-largest-desk", "8,192 bytes over S = 64, G = 255 and 1,024 slots",
                 walk_on_largest())]


def all_cases():
    groups = (fourteen, copies, helds, pools, pointers, random_cases, largest)
    return [found for group in groups for found in group()]
