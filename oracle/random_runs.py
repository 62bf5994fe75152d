"""Seeded random walks over a desk, and random inputs of `desk` made from them."""

import random
from collections import Counter

import desk as machine
import program
from lines import Ask, Delete, MakeCopy, Receive, line_of_call
from program import LONGEST_INPUT, answer_line, answer_to

# How often each call is tried in each phase of a walk: make copy, receive, delete, ask.
PHASES = ((60, 25, 10, 5), (30, 50, 15, 5), (15, 55, 25, 5), (5, 80, 10, 5), (45, 40, 10, 5))
PHASE_LENGTH = 60
TRIES = 12
ODD_CHARACTERS = b"abcdefGgzZ :/@`\r\t\x00\x7f\x80\xff"


def rng_for(*names):
    """A generator that depends on its names alone."""
    return random.Random("/".join(str(name) for name in names))


class Walk:
    """Chooses calls for a desk, most of them such as will be accepted."""

    def __init__(self, rng, desk, accepted_share=0.89):
        self.rng, self.desk, self.accepted_share = rng, desk, accepted_share
        self.hot_pointers = self.some_of(list(desk.owner_of), 4)
        self.hot_sites = self.some_of(list(range(desk.sites)), 5)
        self.steps = 0
        self.start_phase()

    def start_phase(self):
        self.phase = self.rng.choice(PHASES)
        self.patience = self.rng.choice([0, 2, 4])

    def why_no_receive(self, slot):
        return machine.why_no_receive(self.desk, slot)

    def some_of(self, names, most):
        return self.rng.sample(names, min(len(names), self.rng.randint(2, most)))

    def a_pointer(self):
        hot = self.hot_pointers and self.rng.random() < 0.9
        return self.rng.choice(self.hot_pointers if hot else list(self.desk.owner_of) or [0])

    def a_site(self):
        hot = self.rng.random() < 0.9
        return self.rng.choice(self.hot_sites) if hot else self.rng.randrange(self.desk.sites)

    def a_slot(self):
        return self.rng.randrange(len(self.desk.slots) or 1)

    def next_call(self):
        """A call that is probably accepted, or one that is made without looking."""
        if self.steps % PHASE_LENGTH == 0:
            self.start_phase()
        self.steps += 1
        if self.rng.random() < self.accepted_share:
            makers = (self.good_copy, self.good_receive, self.good_delete, self.good_ask)
            for maker in self.rng.choices(makers, self.phase, k=4):
                call = maker()
                if call is not None:
                    return call
        return self.any_call()

    def good_copy(self):
        """Often from a site that is not the owner to one that does not hold yet."""
        fresh = self.rng.random() < 0.6
        for attempt in range(TRIES):
            sender, receiver, pointer = self.a_site(), self.a_site(), self.a_pointer()
            if fresh and attempt < TRIES // 2 and (
                    self.desk.owns(sender, pointer) or self.desk.holds(receiver, pointer)):
                continue
            if machine.why_no_copy(self.desk, sender, receiver, pointer) == 0:
                return MakeCopy(sender, receiver, pointer)
        return None

    def occupied_slots(self):
        return [slot for slot, held in enumerate(self.desk.slots) if held is not None]

    def good_receive(self):
        """INC_DECs are put off for a while, so that DECs are held back behind them."""
        occupied = self.occupied_slots()
        for attempt in range(TRIES if occupied else 0):
            slot = self.rng.choice(occupied)
            if self.desk.slots[slot].kind == machine.INC_DEC and attempt < self.patience:
                continue
            if self.why_no_receive(slot) == 0:
                return Receive(slot)
        return None

    def good_delete(self):
        for site, pointer in self.rng.sample(sorted(self.desk.holders),
                                             min(TRIES, len(self.desk.holders))):
            if machine.why_no_delete(self.desk, site, pointer) == 0:
                return Delete(site, pointer)
        return None

    def good_ask(self):
        pointer = self.a_pointer()
        if pointer not in self.desk.owner_of:
            return None
        return Ask(self.desk.owner_of[pointer], pointer)

    def any_call(self):
        """A call with names that may be wrong, at or just past the largest."""
        site = self.perhaps_outside(self.a_site(), self.desk.sites, 255)
        pointer = self.perhaps_outside(self.a_pointer(), len(self.desk.owner_of), 255)
        shape = self.rng.randrange(5)
        if shape == 0:
            return MakeCopy(self.a_site(), site, pointer)
        if shape == 1:
            return MakeCopy(site, self.a_site(), pointer)
        if shape == 2:
            return Receive(self.perhaps_outside(self.any_slot(), len(self.desk.slots), 65535))
        return (Delete if shape == 3 else Ask)(site, pointer)

    def any_slot(self):
        """A slot that is held back, if one is met, or else any."""
        for slot in self.some_of(self.occupied_slots() or [0], TRIES):
            if self.why_no_receive(slot):
                return slot
        return self.a_slot()

    def perhaps_outside(self, name, first_outside, largest):
        if self.rng.random() < 0.1:
            return self.rng.choice([min(first_outside, largest), largest])
        return name


def is_barren(sites, pointers, slots):
    """No make copy is accepted on such a desk."""
    return sites == 1 or pointers == 0 or slots == 0


def random_shape(rng):
    """S, owners and slot count of an opening that is accepted."""
    sites = rng.choice([1, 2, 2, 3, 3, 3, 4, 4, 5, 6, 8, 17, 64])
    pointers = rng.choice([0, 1, 1, 1, 2, 2, 3, 4, 8, 31, 255, 256])
    slots = rng.choice([0, 1, 2, 3, 5, 8, 8, 13, 16, 16, 24, 40, 64, 257, 300, 1024])
    if is_barren(sites, pointers, slots) and rng.random() < 0.8:
        return random_shape(rng)
    return sites, bytes(rng.randrange(sites) for _ in range(pointers)), slots


def opening_digits(sites, slots, owners):
    return program.bytes_to_digits(bytes((sites & 255, slots >> 8, slots & 255)) + bytes(owners))


def spoilt_opening(rng, way):
    """An opening line that is refused with 1, 1, 2 or 14, by the way chosen."""
    sites, owners, slots = random_shape(rng)
    if way == 0:
        return opening_digits(rng.choice([0, 65, 128, 255]), slots, owners)
    if way == 1:
        return opening_digits(sites, rng.choice([1025, 1280, 65535]), owners)
    if way == 2:
        outside = bytes([rng.choice([sites, 255])])
        at = rng.randint(0, len(owners))
        return opening_digits(sites, slots, (owners[:at] + outside + owners[at:])[-256:])
    return spoilt_text(rng, opening_digits(sites, slots, owners))


def spoilt_text(rng, line):
    """A line with a wrong character, or one character too few or too many."""
    at = rng.randrange(len(line))
    way = rng.randrange(4)
    if way == 0:
        return line[:at] + line[at + 1:]
    if way == 1:
        return line[:at] + line[at:at + 1] + line[at:]
    if way == 2:
        return line.lower() if line.lower() != line else line[:-1]
    return line[:at] + bytes([rng.choice(ODD_CHARACTERS)]) + line[at + 1:]


def spoilt_line(rng, line):
    """A line that is refused with 14, 15 or 16."""
    way = rng.randrange(6)
    if way == 0:
        return rng.choice([b"00", b"05", b"10", b"7F"]) + line[2:]
    if way == 1:
        return rng.choice([b"80", b"81", b"C2", b"FF"]) + line[2:]
    if way == 2:
        return rng.choice([b"02", b"03", b"04"]) + line[2:6] + rng.choice([b"01", b"80", b"FF"])
    if way == 3:
        return rng.choice([b"", b"", line + b"\r", b"05" + line[2:6] + b"01", line[:7]])
    return spoilt_text(rng, line)


class Statistics:
    """What a set of inputs reached."""

    def __init__(self):
        self.refusals, self.posted, self.lines = Counter(), Counter(), 0

    def add(self, output):
        for line in output.split(b"\n")[:-1]:
            self.lines += 1
            self.refusals[int(line[:2], 16)] += 1
            self.posted[int(line[6:8], 16)] += 1

    def report(self):
        accepted = 100 * self.refusals[0] / max(self.lines, 1)
        refusals = " ".join("%d:%d" % pair for pair in sorted(self.refusals.items()) if pair[0])
        return "%d answer lines, %.1f%% accepted; posted COPY %d, DEC %d, INC_DEC %d; refusals %s" % (
            self.lines, accepted, self.posted[1], self.posted[2], self.posted[3], refusals)


def refused_input(rng, way):
    """An input whose opening is refused, so that nothing after it is answered."""
    return spoilt_opening(rng, way) + b"\n" + b"01000100\n" * rng.randrange(3)


def random_input(rng):
    """An input of at most 8,192 bytes that goes deep."""
    sites, owners, slots = random_shape(rng)
    desk = machine.open_desk(sites, owners, slots)
    walk = Walk(rng, desk)
    lines = [opening_digits(sites, slots, owners)]
    room = LONGEST_INPUT - len(lines[0])
    long_enough = [20] if is_barren(sites, len(owners), slots) else [20, 100, 300, 900, 900, 900]
    wanted = rng.choice(long_enough)
    while len(lines) <= wanted and room >= 11:
        call = walk.next_call()
        line = line_of_call(call)
        if rng.random() < 0.03:
            line = spoilt_line(rng, line)
        else:
            answer_to(desk, call)
        lines.append(line)
        room -= 1 + len(line)
    return b"\n".join(lines) + rng.choice([b"\n", b"\n", b""])


def numbered_input(seed, number):
    """Input NUMBER of SEED and what `desk` must write for it; one in sixteen is refused at once."""
    rng = rng_for("input", seed, number)
    round_number, place = divmod(number, 16)
    text = refused_input(rng, round_number % 4) if place == 9 else random_input(rng)
    return text, program.run(text)
