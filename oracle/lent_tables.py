"""Seeded lent tables, good, damaged and good but unreached, and calls over them."""

from desk import COPY, DEC, EMPTY, INC_DEC
from lent_text import LentCall, line_of
from random_runs import rng_for
from tables import Lent
from lent_books import random_book_call
from lent_fixed import fixed_calls

FULL = 65535
EMPTY_SLOT_BYTES = [0, 0, 0, 0, 0]


class Draft:
    """Lent tables that can still be changed before they are lent."""

    def __init__(self, sites, owners, slot_count):
        self.sites, self.owners = sites, list(owners)
        self.send = [0] * (sites * len(self.owners))
        self.receive = [0] * (sites * len(self.owners))
        self.slots = [list(EMPTY_SLOT_BYTES) for _ in range(slot_count)]
        self.pool_tail = 0          # bytes too many, or too few, at the end of the pool

    def place(self, site, pointer):
        return site * len(self.owners) + pointer

    def lent(self):
        pool = bytes(byte for slot in self.slots for byte in slot)
        pool = pool[:self.pool_tail] if self.pool_tail < 0 else pool + bytes(self.pool_tail)
        return Lent(self.sites, bytes(self.owners), tuple(self.send), bytes(self.receive), pool)


def random_count(rng):
    """Counters about 0, about 65,535, and anywhere."""
    return rng.choice([0, 0, 0, 0, 1, 1, 1, 2, 3, FULL - 1, FULL, rng.randrange(FULL + 1)])


def random_sizes(rng):
    """Small desks for the most part, seldom the largest."""
    if rng.random() < 0.004:
        return rng.choice([(64, 256, 3), (64, 3, 1024), (2, 256, 1024), (64, 256, 1024)])
    if rng.random() < 0.05:
        return rng.choice([(64, 1, 4), (1, 1, 2), (2, 0, 2), (1, 0, 0), (3, 2, 0), (17, 5, 30)])
    return rng.choice([2, 2, 3, 3, 4, 5]), rng.choice([1, 1, 2, 2, 3]), rng.randint(1, 7)


def random_message(rng, draft):
    """Messages the paper's machine makes for the most part, and any others."""
    sender, receiver = rng.randrange(draft.sites), rng.randrange(draft.sites)
    pointer = rng.randrange(len(draft.owners))
    kind = rng.choice([COPY, COPY, DEC, DEC, DEC, INC_DEC, INC_DEC])
    if kind != COPY and rng.random() < 0.6:
        receiver = draft.owners[pointer]
    third = rng.randrange(draft.sites) if kind == INC_DEC else 0
    return [kind, sender, receiver, third, pointer]


def random_draft(rng, sizes=random_sizes):
    """Good tables; hardly any are reached from an opening."""
    sites, pointers, slot_count = sizes(rng)
    draft = Draft(sites, [rng.randrange(sites) for _ in range(pointers)], slot_count)
    draft.send = [random_count(rng) for _ in draft.send]
    density = rng.choice([0.2, 0.5, 0.8])
    draft.receive = [int(rng.random() < density) for _ in draft.receive]
    for pointer, owner in enumerate(draft.owners):
        draft.receive[draft.place(owner, pointer)] = int(rng.random() < 0.8)
    fill = rng.choice([0.2, 0.5, 0.8, 0.9, 1])
    for slot in range(slot_count if pointers else 0):
        if rng.random() < fill:
            draft.slots[slot] = random_message(rng, draft)
    return draft


# Calls with what they need nudged into the tables, so that about half are accepted.

def a_site(rng, draft):
    return rng.randrange(max(draft.sites, 1))


def a_pointer(rng, draft):
    return rng.randrange(max(len(draft.owners), 1))


def another_site(rng, draft, site):
    """Mostly another one, if there is one."""
    others = [other for other in range(draft.sites) if other != site]
    return rng.choice(others) if others and rng.random() < 0.85 else site


def not_the_owner(rng, draft, pointer):
    """Mostly a site that does not own the pointer."""
    if pointer < len(draft.owners):
        return another_site(rng, draft, draft.owners[pointer])
    return a_site(rng, draft)


def perhaps_outside(rng, name, first_outside, largest):
    """Now and then the first name that is too large, or the largest of its form."""
    if rng.random() < 0.06:
        return rng.choice([min(first_outside, largest), largest])
    return name


def in_tables(draft, site, pointer):
    return site < draft.sites and pointer < len(draft.owners)


def nudge_cell(rng, draft, site, pointer, cell_chance):
    """Set the cell with the chance given and give the counter a value that matters."""
    if in_tables(draft, site, pointer):
        place = draft.place(site, pointer)
        if rng.random() < cell_chance:
            draft.receive[place] = 1
        draft.send[place] = rng.choice([0, 0, 0, 1, FULL, random_count(rng)])


def nudge_room(rng, draft):
    if draft.slots and rng.random() < 0.6:
        draft.slots[rng.randrange(len(draft.slots))] = list(EMPTY_SLOT_BYTES)


def copy_call(rng, draft):
    sender, pointer = a_site(rng, draft), a_pointer(rng, draft)
    receiver = another_site(rng, draft, sender)
    nudge_cell(rng, draft, sender, pointer, 0.6)
    nudge_room(rng, draft)
    return "copy", (perhaps_outside(rng, sender, draft.sites, 255),
                    perhaps_outside(rng, receiver, draft.sites, 255),
                    perhaps_outside(rng, pointer, len(draft.owners), 255))


def near_miss(rng, draft, dec):
    """An INC_DEC that holds a DEC back, or one that is like it but for one part."""
    _, sender, receiver, _, pointer = dec
    third = rng.choice([sender, receiver, rng.randrange(draft.sites)])
    message = [INC_DEC, sender, receiver, third, pointer]
    way = rng.randrange(6)
    if way == 1:
        message[1] = rng.randrange(draft.sites)
    elif way == 2:
        message[2] = rng.randrange(draft.sites)
    elif way == 3:
        message[4] = rng.randrange(len(draft.owners))
    elif way == 4:
        message[1], message[2] = receiver, sender
    return message


def receive_call(rng, draft):
    slot = rng.randrange(max(len(draft.slots), 1))
    full = [number for number, held in enumerate(draft.slots) if held[0] != EMPTY]
    if full and rng.random() < 0.9:
        slot = rng.choice(full)
    if slot in full:
        kind, sender, receiver, _, pointer = draft.slots[slot]
        place = draft.place(receiver, pointer)
        draft.send[place] = rng.choice([0, 1, 1, 2, 77, FULL - 1, FULL])
        other = rng.randrange(len(draft.slots))
        if kind == DEC and other != slot and rng.random() < 0.6:
            draft.slots[other] = near_miss(rng, draft, draft.slots[slot])
        if kind == COPY and sender == receiver and rng.random() < 0.8:
            draft.slots[slot][2] = another_site(rng, draft, sender)
    return "receive", (perhaps_outside(rng, slot, len(draft.slots), 65535),)


def delete_call(rng, draft):
    pointer = a_pointer(rng, draft)
    site = not_the_owner(rng, draft, pointer)
    nudge_cell(rng, draft, site, pointer, 0.7)
    nudge_room(rng, draft)
    return "delete", (perhaps_outside(rng, site, draft.sites, 255),
                      perhaps_outside(rng, pointer, len(draft.owners), 255))


def ask_call(rng, draft):
    site, pointer = a_site(rng, draft), a_pointer(rng, draft)
    if pointer < len(draft.owners) and rng.random() < 0.7:
        site = draft.owners[pointer]
        draft.send[draft.place(site, pointer)] = rng.choice([0, 0, 1, 256, random_count(rng)])
    return "ask", (perhaps_outside(rng, site, draft.sites, 255),
                   perhaps_outside(rng, pointer, len(draft.owners), 255))


def share_call(rng, draft):
    pointer = a_pointer(rng, draft)
    site = not_the_owner(rng, draft, pointer)
    if in_tables(draft, site, pointer):
        owner = draft.owners[pointer]
        for slot in draft.slots:
            if rng.random() < 0.5:
                slot[:] = rng.choice([[DEC, site, owner, 0, pointer], [COPY, owner, site, 0, pointer],
                                      [INC_DEC, site, owner, a_site(rng, draft), pointer]])
    return "share", (perhaps_outside(rng, site, draft.sites, 255),
                     perhaps_outside(rng, pointer, len(draft.owners), 255))


def sheet_call(rng, draft):
    length = 192 if rng.random() < 0.85 else rng.choice([0, 1, 3, 64, 191, 193])
    return "sheet", (perhaps_outside(rng, a_pointer(rng, draft), len(draft.owners), 255), length)


def open_call(rng, draft):
    return "open", ()


CALL_MAKERS = ((open_call, 8), (copy_call, 18), (receive_call, 32), (delete_call, 14),
               (ask_call, 8), (share_call, 10), (sheet_call, 6))


# Damage of one part, each against one sentence of 'What the host lends'.

def damage_length(rng, draft):
    part = rng.choice([draft.send, draft.receive, draft.owners])
    if part and rng.random() < 0.5:
        part.pop()
    else:
        part.append(0)


def damage_pool_length(rng, draft):
    draft.pool_tail = rng.choice([1, 2, 4, 5 * 1025 - 5 * len(draft.slots)])
    if draft.slots and rng.random() < 0.5:
        draft.pool_tail = -rng.randint(1, 4)


def damage_sites(rng, draft):
    """An S that is not 1 to 64, with lengths that fit it."""
    sites = rng.choice([0, 65, 66, 128, 255])
    slots = draft.slots
    fit = Draft(sites, draft.owners, 0)
    draft.sites, draft.send, draft.receive, draft.slots = sites, fit.send, fit.receive, slots


def damage_pointers(rng, draft):
    """One pointer too many, with lengths that fit."""
    fit = Draft(draft.sites, [0] * 257, 0)
    draft.owners, draft.send, draft.receive = fit.owners, fit.send, fit.receive


def damage_owner(rng, draft):
    if draft.owners:
        draft.owners[rng.randrange(len(draft.owners))] = rng.choice([min(draft.sites, 255), 255])


def damage_cell(rng, draft):
    if draft.receive:
        draft.receive[rng.randrange(len(draft.receive))] = rng.choice([2, 3, 128, 255])


def damage_slot(rng, draft):
    """One byte of a slot at the first value that is too large there, or a far one."""
    if draft.slots:
        slot = rng.choice(draft.slots)
        byte = rng.randrange(5)
        site_limit = min(draft.sites, 255)
        limits = [4, site_limit, site_limit, rng.choice([1, site_limit]), min(len(draft.owners), 255)]
        slot[byte] = rng.choice([limits[byte], limits[byte], 255])


DAMAGES = ((damage_length, 4), (damage_pool_length, 3), (damage_sites, 2), (damage_pointers, 0.3),
           (damage_owner, 4), (damage_cell, 4), (damage_slot, 8))


def pick(rng, weighted):
    return rng.choices([item for item, _ in weighted], [weight for _, weight in weighted])[0]


def random_table_call(rng):
    draft = random_draft(rng)
    name, arguments = pick(rng, CALL_MAKERS)(rng, draft)
    for _ in range(rng.choice([0, 0, 0, 0, 0, 0, 0, 1, 1, 2])):
        pick(rng, DAMAGES)(rng, draft)
    return LentCall(name, draft.lent(), arguments)


def random_lent_call(rng):
    return random_book_call(rng) if rng.random() < 0.2 else random_table_call(rng)


def lent_lines(seed, count):
    """The fixed calls first, then seeded ones, COUNT in all, as lines of text."""
    fixed = fixed_calls()
    for number in range(count):
        rng = rng_for("lent", seed, number)
        call = fixed[number] if number < len(fixed) else random_lent_call(rng)
        yield line_of(call, lambda: rng.choice(["-", "null"]))
