"""The desk as maps and a list of slots: document 01, 'The calls' and 'Share and sheet'."""

from collections import namedtuple

from refusals import (
    ACCEPTED, BAD_NAME, COUNTER_FULL, COUNTER_ZERO, EMPTY_SLOT, HELD, IS_OWNER,
    NOT_HELD, NOT_OWNER, POOL_FULL, SAME_SITE, STILL_COUNTED, first_refusal)

EMPTY, COPY, DEC, INC_DEC = 0, 1, 2, 3
GREATEST_COUNT = 65535
MOST_SITES, MOST_POINTERS, MOST_SLOTS = 64, 256, 1024
SHEET_COLUMNS = 64

# The five bytes of a slot, in the document's order.
Message = namedtuple("Message", "kind sender receiver third pointer")
# A message of None is "none" in the document's words; `empty` is told by an accepted make copy or delete alone.
Answer = namedtuple("Answer", "number value message empty", defaults=(0,))
ShareAnswer = namedtuple("ShareAnswer", "number share")
SheetAnswer = namedtuple("SheetAnswer", "number rows")


class Desk:
    """Who owns, who holds, what is counted and what is in flight."""

    def __init__(self, sites, owners, slot_count):
        self.sites = sites
        self.owner_of = dict(enumerate(owners))
        self.counts = {}            # (site, pointer) -> counter; a missing pair counts 0
        self.holders = set()        # the pairs (site, pointer) whose receive cell is 1
        self.slots = [None] * slot_count

    def lacks_site(self, site):
        return site >= self.sites

    def lacks_pointer(self, pointer):
        return pointer not in self.owner_of

    def owns(self, site, pointer):
        return self.owner_of.get(pointer) == site

    def holds(self, site, pointer):
        return (site, pointer) in self.holders

    def count(self, site, pointer):
        return self.counts.get((site, pointer), 0)

    def change_count(self, site, pointer, step):
        self.counts[site, pointer] = self.count(site, pointer) + step

    def in_flight(self):
        """Every message of the bag, in slot order."""
        return [message for message in self.slots if message is not None]

    def is_full(self):
        return None not in self.slots

    def empty_slots(self):
        """How many slots are empty (document 02, One)."""
        return sum(message is None for message in self.slots)

    def post(self, message):
        """Put a message into the lowest empty slot and name that slot."""
        slot = self.slots.index(None)
        self.slots[slot] = message
        return slot


def refused(number):
    """Each refusal returns its number, value 0 and no message."""
    return Answer(number, 0, None)


def posted_answer(desk, message):
    """Posts a message; tells its slot, and how many slots were empty before it."""
    empty = desk.empty_slots()
    return Answer(ACCEPTED, desk.post(message), message, empty)


def open_desk(sites, owners, slot_count):
    """Counters 0, cells 1 at the owner and 0 elsewhere, slots empty."""
    desk = Desk(sites, owners, slot_count)
    desk.holders = {(site, pointer) for pointer, site in desk.owner_of.items()}
    return desk


# Make copy: 3, then 4, 5, 6, 7.

def why_no_copy(desk, sender, receiver, pointer):
    return first_refusal(
        (BAD_NAME, lambda: desk.lacks_site(sender) or desk.lacks_site(receiver)
         or desk.lacks_pointer(pointer)),
        (SAME_SITE, lambda: sender == receiver),
        (NOT_HELD, lambda: not (desk.owns(sender, pointer) or desk.holds(sender, pointer))),
        (COUNTER_FULL, lambda: desk.count(sender, pointer) == GREATEST_COUNT),
        (POOL_FULL, lambda: desk.is_full()),
    )


def make_copy(desk, sender, receiver, pointer):
    number = why_no_copy(desk, sender, receiver, pointer)
    if number:
        return refused(number)
    desk.change_count(sender, pointer, +1)
    return posted_answer(desk, Message(COPY, sender, receiver, 0, pointer))


# Receive: 3, 8, then COPY 4, DEC 9 and 10, INC_DEC 6.

def is_held(desk, dec):
    """Some slot holds an INC_DEC from a to b for that pointer, with any third site."""
    return any(
        other.kind == INC_DEC
        and other.sender == dec.sender
        and other.receiver == dec.receiver
        and other.pointer == dec.pointer
        for other in desk.in_flight())


def why_no_copy_arrival(desk, message):
    return first_refusal(
        (SAME_SITE, lambda: message.sender == message.receiver),
    )


def why_no_dec_arrival(desk, message):
    return first_refusal(
        (HELD, lambda: is_held(desk, message)),
        (COUNTER_ZERO, lambda: desk.count(message.receiver, message.pointer) == 0),
    )


def why_no_inc_dec_arrival(desk, message):
    count = desk.count(message.receiver, message.pointer)
    return first_refusal(
        (COUNTER_FULL, lambda: count == GREATEST_COUNT),
    )


def why_no_receive(desk, slot):
    if slot >= len(desk.slots):
        return BAD_NAME
    message = desk.slots[slot]
    if message is None:
        return EMPTY_SLOT
    return WHY_NO_ARRIVAL[message.kind](desk, message)


def copy_arrives(desk, message):
    """A site that holds sends the copy back as a DEC; a first copy is told to the owner."""
    _, sender, receiver, _, pointer = message
    owner = desk.owner_of[pointer]
    if desk.holds(receiver, pointer):
        return Message(DEC, receiver, sender, 0, pointer)
    desk.holders.add((receiver, pointer))
    if sender == owner:
        return None
    return Message(INC_DEC, receiver, owner, sender, pointer)


def inc_dec_arrives(desk, message):
    _, _, receiver, third, pointer = message
    desk.change_count(receiver, pointer, +1)
    return Message(DEC, receiver, third, 0, pointer)


def dec_arrives(desk, message):
    desk.change_count(message.receiver, message.pointer, -1)
    return None


WHY_NO_ARRIVAL = {
    COPY: why_no_copy_arrival, DEC: why_no_dec_arrival, INC_DEC: why_no_inc_dec_arrival}
ARRIVALS = {COPY: copy_arrives, DEC: dec_arrives, INC_DEC: inc_dec_arrives}


def receive(desk, slot):
    """What is posted takes the handled slot; otherwise the slot becomes empty."""
    number = why_no_receive(desk, slot)
    if number:
        return refused(number)
    message = desk.slots[slot]
    posted = ARRIVALS[message.kind](desk, message)
    desk.slots[slot] = posted
    return Answer(ACCEPTED, slot, posted)


# Delete: 3, then 11, 5, 12, 7.

def why_no_delete(desk, site, pointer):
    return first_refusal(
        (BAD_NAME, lambda: desk.lacks_site(site) or desk.lacks_pointer(pointer)),
        (IS_OWNER, lambda: desk.owns(site, pointer)),
        (NOT_HELD, lambda: not desk.holds(site, pointer)),
        (STILL_COUNTED, lambda: desk.count(site, pointer) != 0),
        (POOL_FULL, lambda: desk.is_full()),
    )


def delete(desk, site, pointer):
    number = why_no_delete(desk, site, pointer)
    if number:
        return refused(number)
    desk.holders.remove((site, pointer))
    return posted_answer(desk, Message(DEC, site, desk.owner_of[pointer], 0, pointer))


# Ask: 3, then 13.

def why_no_ask(desk, site, pointer):
    return first_refusal(
        (BAD_NAME, lambda: desk.lacks_site(site) or desk.lacks_pointer(pointer)),
        (NOT_OWNER, lambda: not desk.owns(site, pointer)),
    )


def ask(desk, site, pointer):
    number = why_no_ask(desk, site, pointer)
    if number:
        return refused(number)
    return Answer(ACCEPTED, 1 if desk.count(site, pointer) == 0 else 0, None)


# Share: 3, then 11.

def why_no_share(desk, site, pointer):
    return first_refusal(
        (BAD_NAME, lambda: desk.lacks_site(site) or desk.lacks_pointer(pointer)),
        (IS_OWNER, lambda: desk.owns(site, pointer)),
    )


def share_of(desk, site, pointer):
    """Cell, plus DECs to and COPYs from the owner, minus INC_DECs to the owner."""
    owner = desk.owner_of[pointer]
    weights = {(DEC, site, owner): +1, (COPY, owner, site): +1, (INC_DEC, site, owner): -1}
    cell = 1 if desk.holds(site, pointer) else 0
    return cell + sum(
        weights.get((message.kind, message.sender, message.receiver), 0)
        for message in desk.in_flight() if message.pointer == pointer)


def share(desk, site, pointer):
    number = why_no_share(desk, site, pointer)
    if number:
        return ShareAnswer(number, 0)
    return ShareAnswer(ACCEPTED, share_of(desk, site, pointer))


# Sheet: 3.

def no_rows():
    return {COPY: {}, DEC: {}, INC_DEC: {}}


def column_of(message):
    """The site whose counter a message acts on (document 02, Two; the paper's Definition 3)."""
    if message.kind == COPY:
        return message.sender
    return message.receiver if message.kind == DEC else message.third


def sheet(desk, pointer):
    """Messages of one pointer by kind and by the site whose counter they act on; a missing column is 0."""
    if desk.lacks_pointer(pointer):
        return SheetAnswer(BAD_NAME, no_rows())
    rows = no_rows()
    for message in desk.in_flight():
        if message.pointer == pointer:
            row, column = rows[message.kind], column_of(message)
            row[column] = row.get(column, 0) + 1
    return SheetAnswer(ACCEPTED, rows)


def sheet_counts(rows):
    """The sheet row by row: COPY, DEC, INC_DEC, 64 columns each."""
    return [rows[kind].get(site, 0)
            for kind in (COPY, DEC, INC_DEC) for site in range(SHEET_COLUMNS)]
