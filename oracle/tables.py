"""Lent tables as raw parts, their tests, and every call over them: document 01, 'What the host lends'."""

from collections import namedtuple

import desk as machine
from desk import (
    COPY, DEC, EMPTY, INC_DEC, MOST_POINTERS, MOST_SITES, MOST_SLOTS, Answer, Desk, Message,
    ShareAnswer, SheetAnswer, refused)
from refusals import ACCEPTED, BAD_SHAPE, BAD_TABLE, first_refusal

SLOT_BYTES = 5
SHEET_LENGTH = 192

# sites: a byte; owners, receive, pool: bytes; send: a tuple of 16-bit counters.
Lent = namedtuple("Lent", "sites owners send receive pool")


def breaks_group(sites, owners):
    """S is 1 to 64 and G is 0 to 256."""
    return not 1 <= sites <= MOST_SITES or len(owners) > MOST_POINTERS


def breaks_shape(lent):
    """Lengths are exact, and the pool is 0 to 1,024 whole slots."""
    cells = lent.sites * len(lent.owners)
    return (breaks_group(lent.sites, lent.owners)
            or len(lent.send) != cells
            or len(lent.receive) != cells
            or len(lent.pool) % SLOT_BYTES != 0
            or len(lent.pool) // SLOT_BYTES > MOST_SLOTS)


def breaks_owners(sites, owners):
    """Each owner is below S."""
    return any(owner >= sites for owner in owners)


def breaks_slot(slot, sites, pointers):
    """An empty slot is five zero bytes; third is 0 except in an INC_DEC."""
    kind, sender, receiver, third, pointer = slot
    if kind == EMPTY:
        return any(slot)
    misnamed = sender >= sites or receiver >= sites or pointer >= pointers
    if kind in (COPY, DEC):
        return misnamed or third != 0
    if kind == INC_DEC:
        return misnamed or third >= sites
    return True


def slots_of(pool):
    """The whole slots of a pool, as lists of five bytes."""
    whole = len(pool) - len(pool) % SLOT_BYTES
    return [tuple(pool[at:at + SLOT_BYTES]) for at in range(0, whole, SLOT_BYTES)]


def breaks_table(lent):
    """An owner, receive byte or slot breaks the table."""
    return (breaks_owners(lent.sites, lent.owners)
            or any(cell > 1 for cell in lent.receive)
            or any(breaks_slot(slot, lent.sites, len(lent.owners))
                   for slot in slots_of(lent.pool)))


def why_no_tables(lent):
    return first_refusal(
        (BAD_SHAPE, lambda: breaks_shape(lent)),
        (BAD_TABLE, lambda: breaks_table(lent)),
    )


def decode(lent):
    """Good tables as a desk of maps; the cell of site s and pointer p is at s x G + p."""
    pointers = len(lent.owners)
    slots = slots_of(lent.pool)
    desk = Desk(lent.sites, lent.owners, len(slots))
    desk.counts = {divmod(place, pointers): count
                   for place, count in enumerate(lent.send) if count}
    desk.holders = {divmod(place, pointers)
                    for place, cell in enumerate(lent.receive) if cell == 1}
    desk.slots = [Message(*slot) if slot[0] != EMPTY else None for slot in slots]
    return desk


def slot_bytes(message):
    """A message, or none, as the five bytes of a slot."""
    return bytes(SLOT_BYTES) if message is None else bytes(message)


def encode(desk):
    """A desk of maps as the parts that hold it."""
    owners = bytes(desk.owner_of.values())
    pairs = [(site, pointer) for site in range(desk.sites) for pointer in range(len(owners))]
    return Lent(
        desk.sites, owners,
        tuple(desk.count(*pair) for pair in pairs),
        bytes(1 if pair in desk.holders else 0 for pair in pairs),
        b"".join(slot_bytes(message) for message in desk.slots))


def why_no_opening(sites, owners):
    """What an opening and the questions of the book test first."""
    return first_refusal(
        (BAD_SHAPE, lambda: breaks_group(sites, owners)),
        (BAD_TABLE, lambda: breaks_owners(sites, owners)),
    )


def why_no_lent_opening(lent):
    """Opening gives 1 and, for owners, 2; it reads nothing else that the parts held."""
    return first_refusal(
        (BAD_SHAPE, lambda: breaks_shape(lent)),
        (BAD_TABLE, lambda: breaks_owners(lent.sites, lent.owners)),
    )


def lent_open(lent):
    number = why_no_lent_opening(lent)
    if number:
        return refused(number), lent
    opened = machine.open_desk(lent.sites, lent.owners, len(lent.pool) // SLOT_BYTES)
    return Answer(ACCEPTED, 0, None), encode(opened)


def over_tables(lent, call, arguments, refusal):
    """1 and 2 first, then the call on the maps; the answer and all lent memory after it."""
    number = why_no_tables(lent)
    if number:
        return refusal(number), lent
    desk = decode(lent)
    answer = call(desk, *arguments)
    return answer, encode(desk)


def lent_make_copy(lent, sender, receiver, pointer):
    return over_tables(lent, machine.make_copy, (sender, receiver, pointer), refused)


def lent_receive(lent, slot):
    return over_tables(lent, machine.receive, (slot,), refused)


def lent_delete(lent, site, pointer):
    return over_tables(lent, machine.delete, (site, pointer), refused)


def lent_ask(lent, site, pointer):
    return over_tables(lent, machine.ask, (site, pointer), refused)


def lent_share(lent, site, pointer):
    return over_tables(lent, machine.share, (site, pointer),
                       lambda number: ShareAnswer(number, 0))


def lent_sheet(lent, pointer):
    return over_tables(lent, machine.sheet, (pointer,),
                       lambda number: SheetAnswer(number, machine.no_rows()))


def lent_sheet_into(lent, pointer, paper):
    """The sheet written into lent counts: another length than 192 gives 1 and writes nothing."""
    if len(paper) != SHEET_LENGTH:
        return BAD_SHAPE, list(paper), lent
    answer, after = lent_sheet(lent, pointer)
    return answer.number, machine.sheet_counts(answer.rows), after
