"""The refusals of documents 01 and 02: each number, its name and its cause in words. A cause is looked up in the books for an
answer that was given; it never decides one."""

from collections import namedtuple

from .books import range_words, whole
from .forms import COPY, DEC, INC_DEC, LONGEST_INPUT, Opening, quote_of_call, quote_of_opening

Refusal = namedtuple("Refusal", "name cause")
SHOWN = 3


def listed(messages, shown=SHOWN):
    """Messages with their slots and lines; of many, the first and how many more."""
    parts = [message.where() for message in messages[:shown]]
    if len(messages) > shown:
        parts.append("%d more" % (len(messages) - shown))
    return parts[0] if len(parts) == 1 else ", ".join(parts[:-1]) + " and " + parts[-1]


def bad_shape(run, row):
    if isinstance(row.call, Opening):
        return "%s and %s; a desk has 1 to 64 sites and at most 1,024 slots" % (
            whole(row.call.sites, "site"), whole(row.call.slots, "slot"))
    return None


def bad_table(run, row):
    if isinstance(row.call, Opening):
        for pointer, owner in enumerate(row.call.owners):
            if owner >= row.call.sites:
                return "pointer %d is owned by site %d, and %s" % (pointer, owner, range_words(row.call.sites, "site"))
    return None


def bad_name(run, row):
    return run.books.outside(row.call)


def same_site(run, row):
    sender, receiver = (row.refused.sender, row.refused.receiver) if row.refused else (row.call.site, row.call.to)
    return "from and to are both site %d" % sender if sender == receiver else None


def not_held(run, row):
    site, pointer = row.call.site, row.call.pointer
    kept = run.books.pointers[pointer]
    if site in kept.holders:
        return None
    late = [message for message in kept.flight.values() if message.kind == COPY and message.receiver == site]
    said = "site %d does not hold pointer %d" % (site, pointer)
    if (site, pointer) in run.books.given_up:
        said += ", it deleted it at line %d" % run.books.given_up[site, pointer]
    if late:
        return "%s; on its way: %s" % (said, listed(late))
    return said if (site, pointer) in run.books.given_up else said + ", and no copy was sent to it"


def site_counted(run, row):
    """The site whose counter the call would move, and that counter."""
    if row.refused:
        return row.refused.receiver, run.books.pointers[row.pointer].count(row.refused.receiver)
    return row.call.site, run.books.pointers[row.pointer].count(row.call.site)


def counter_stands(run, row):
    return "the counter of site %d is %s" % tuple(format(n, ",") for n in site_counted(run, row))


def pool_full(run, row):
    if len(run.books.slots) < run.books.slot_count:
        return None
    return "the pool has no slot" if run.books.slot_count == 0 else "%s, each with a message" % whole(run.books.slot_count, "slot")


def empty_slot(run, row):
    slot = row.call.slot
    if slot in run.books.slots:
        return None
    last = run.books.last.get(slot)
    if last is None:
        return "nothing was posted into slot %d" % slot
    return "slot %d is empty since line %d, which received %s" % (slot, last.received, last.words())


def held(run, row):
    dec = row.refused
    before = [other for other in run.books.pointers[dec.pointer].flight.values()
              if other.kind == INC_DEC and (other.sender, other.receiver) == (dec.sender, dec.receiver)]
    return "waits for %s" % listed(before) if before else None


def is_owner(run, row):
    return "site %d owns pointer %d" % (run.books.pointers[row.pointer].owner, row.pointer)


def still_counted(run, row):
    """Its counter, and the messages that act on it (Lemma 4)."""
    site, count = site_counted(run, row)
    acting = [m for m in run.books.pointers[row.pointer].flight.values()
              if {COPY: m.sender, DEC: m.receiver, INC_DEC: m.third}[m.kind] == site]
    return "its counter is %d%s" % (count, ", for " + listed(acting) if acting else "") if count else None


def bad_line(run, row):
    return (quote_of_opening if row.number == 1 else quote_of_call)(row.line)


def code_of(run, row):
    return "code %s names no call" % row.line[:2].decode("ascii", "replace")


def private_code(run, row):
    return "code %s is private, as 80 to FF are" % row.line[:2].decode("ascii", "replace")


def too_long(run, row):
    return "the input has %s bytes, and desk reads at most %s" % (format(run.size, ","), format(LONGEST_INPUT, ","))


def said(words):
    """A cause that no run of `desk` shows: the document's own words."""
    return lambda run, row: words


NUMBERS = {
    1: Refusal("BadShape", bad_shape),
    2: Refusal("BadTable", bad_table),
    3: Refusal("BadName", bad_name),
    4: Refusal("SameSite", same_site),
    5: Refusal("NotHeld", not_held),
    6: Refusal("CounterFull", counter_stands),
    7: Refusal("PoolFull", pool_full),
    8: Refusal("EmptySlot", empty_slot),
    9: Refusal("Held", held),
    10: Refusal("CounterZero", counter_stands),
    11: Refusal("IsOwner", is_owner),
    12: Refusal("StillCounted", still_counted),
    13: Refusal("NotOwner", is_owner),
    14: Refusal("BadLine", bad_line),
    15: Refusal("UnknownCode", code_of),
    16: Refusal("PrivateCode", private_code),
    17: Refusal("TooLong", too_long),
    18: Refusal("BadBook", said("the book is not exactly one entry for each pointer")),
    19: Refusal("Twins", said("two pointers have equal owner and equal address")),
    20: Refusal("NotListed", said("no pointer has the wanted owner and address")),
    21: Refusal("OutOfOrder", said("the message does not carry its pair's next number")),
    22: Refusal("BadSnapshot", said("a line of the snapshot breaks its form, is missing or is one too many")),
    23: Refusal("Unlike", said("the two messages cannot become one")),
    24: Refusal("SumTooLarge", said("the two amounts add up to more than 65,535")),
    25: Refusal("Retired", said("the pointer is retired")),
    26: Refusal("NoFreePointer", said("no pointer is retired")),
    27: Refusal("NoTrueCount", said("a recount is below 0 or above 65,535")),
}


def name_of(number):
    return "%d %s" % (number, NUMBERS[number].name)


def cause_of(run, row):
    """The cause of a refusal in words; where the books show none, that they do not."""
    try:
        words = NUMBERS[row.answer.number].cause(run, row)
    except (AttributeError, TypeError, IndexError):   # the number is of another call than the line's: there is nothing to look up
        words = None
    return words or "the books show no cause for it; --check compares with desk"
