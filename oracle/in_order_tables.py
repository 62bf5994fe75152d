"""Lent tables of the in-order variant as raw parts: slots of seven bytes, and two tables of S x S numbers."""

from collections import namedtuple

import desk as machine
import in_order
import tables
from desk import EMPTY, MOST_SLOTS, Answer, Message, ShareAnswer, SheetAnswer, refused
from in_order import NUMBERS, OrderedDesk, Queue
from refusals import ACCEPTED, BAD_SHAPE, BAD_TABLE, first_refusal

SLOT_BYTES = 7

# As in the base; to_post and to_receive are tuples of 16-bit numbers, pair (a, b) at a x S + b.
OrderedLent = namedtuple("OrderedLent", "sites owners send receive pool to_post to_receive")


def breaks_shape(lent):
    """Lengths are exact, and the pool is 0 to 1,024 whole slots."""
    cells, pairs = lent.sites * len(lent.owners), lent.sites * lent.sites
    return (tables.breaks_group(lent.sites, lent.owners)
            or len(lent.send) != cells or len(lent.receive) != cells
            or len(lent.pool) % SLOT_BYTES != 0 or len(lent.pool) // SLOT_BYTES > MOST_SLOTS
            or len(lent.to_post) != pairs
            or len(lent.to_receive) != pairs)


def breaks_slot(slot, sites, pointers):
    """An empty slot is seven zero bytes; any number is good in a full one."""
    if slot[0] == EMPTY:
        return any(slot)
    return tables.breaks_slot(slot[:tables.SLOT_BYTES], sites, pointers)


def slots_of(pool):
    return [tuple(pool[at:at + SLOT_BYTES]) for at in range(0, len(pool) - SLOT_BYTES + 1, SLOT_BYTES)]


def breaks_table(lent):
    """An owner, receive byte or slot breaks the table; no entry of the two tables does."""
    return (tables.breaks_owners(lent.sites, lent.owners)
            or any(cell > 1 for cell in lent.receive)
            or any(breaks_slot(slot, lent.sites, len(lent.owners)) for slot in slots_of(lent.pool)))


def why_no_tables(lent):
    return first_refusal(
        (BAD_SHAPE, lambda: breaks_shape(lent)),
        (BAD_TABLE, lambda: breaks_table(lent)),
    )


def place_of(pair, sites):
    sender, receiver = pair
    return sender * sites + receiver


def number_of(slot):
    """The number of a slot, high byte first."""
    return 256 * slot[5] + slot[6]


def decode(lent):
    """Good tables as a desk of maps and queues."""
    base = tables.decode(tables.Lent(lent.sites, lent.owners, lent.send, lent.receive, b""))
    slots = slots_of(lent.pool)
    desk = OrderedDesk(lent.sites, lent.owners, len(slots))
    desk.counts, desk.holders = base.counts, base.holders
    for pair in desk.queues:
        front, after = (table[place_of(pair, lent.sites)] for table in (lent.to_receive, lent.to_post))
        desk.queues[pair] = Queue(front, (after - front) % NUMBERS)
    for place, slot in enumerate(slots):
        if slot[0] != EMPTY:
            desk.slots[place] = Message(*slot[:5])
            queue = desk.queue_of(desk.slots[place])
            queue.behind[place] = (number_of(slot) - queue.front) % NUMBERS
    return desk


def slot_bytes(desk, slot):
    """A slot as its seven bytes."""
    message = desk.slots[slot]
    if message is None:
        return bytes(SLOT_BYTES)
    number = desk.queue_of(message).number_of(slot)
    return bytes(message) + bytes((number >> 8, number & 255))


def encode(desk):
    """A desk of maps and queues as the parts that hold it."""
    base = tables.encode(desk)
    numbers = sorted((place_of(pair, desk.sites), queue.next_number(), queue.front)
                     for pair, queue in desk.queues.items())
    return OrderedLent(
        base.sites, base.owners, base.send, base.receive,
        b"".join(slot_bytes(desk, slot) for slot in range(len(desk.slots))),
        tuple(after for _, after, _ in numbers), tuple(front for _, _, front in numbers))


def why_no_lent_opening(lent):
    return first_refusal(
        (BAD_SHAPE, lambda: breaks_shape(lent)),
        (BAD_TABLE, lambda: tables.breaks_owners(lent.sites, lent.owners)),
    )


def lent_open(lent):
    number = why_no_lent_opening(lent)
    if number:
        return refused(number), lent
    opened = in_order.open_desk(lent.sites, lent.owners, len(lent.pool) // SLOT_BYTES)
    return Answer(ACCEPTED, 0, None), encode(opened)


def over_tables(lent, call, arguments, refusal):
    """1 and 2 first, then the call on maps and queues; the answer and all lent memory after it."""
    number = why_no_tables(lent)
    if number:
        return refusal(number), lent
    desk = decode(lent)
    answer = call(desk, *arguments)
    return answer, encode(desk)


def lent_make_copy(lent, sender, receiver, pointer):
    return over_tables(lent, in_order.make_copy, (sender, receiver, pointer), refused)


def lent_receive(lent, slot):
    return over_tables(lent, in_order.receive, (slot,), refused)


def lent_delete(lent, site, pointer):
    return over_tables(lent, in_order.delete, (site, pointer), refused)


def lent_ask(lent, site, pointer):
    return over_tables(lent, in_order.ask, (site, pointer), refused)


def lent_share(lent, site, pointer):
    return over_tables(lent, in_order.share, (site, pointer), lambda number: ShareAnswer(number, 0))


def lent_sheet_into(lent, pointer, paper):
    """As in the base: another length than 192 gives 1 and writes nothing."""
    if len(paper) != tables.SHEET_LENGTH:
        return BAD_SHAPE, list(paper), lent
    answer, after = over_tables(lent, in_order.sheet, (pointer,),
                                lambda number: SheetAnswer(number, machine.no_rows()))
    return answer.number, machine.sheet_counts(answer.rows), after
