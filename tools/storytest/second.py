"""A run as the independent program (`oracle/`) sees it: what each line leaves, and the life of every message."""

import os
import sys
from collections import namedtuple

ROOT = os.path.dirname(os.path.dirname(os.path.dirname(os.path.abspath(__file__))))
sys.path.insert(0, os.path.join(ROOT, "oracle"))

import desk as machine  # noqa: E402
import program  # noqa: E402
import random_runs  # noqa: E402
import refusals  # noqa: E402
from lines import Ask, Reader, Receive, Refusal, line_of_call  # noqa: E402

KINDS = {machine.COPY: "COPY", machine.DEC: "DEC", machine.INC_DEC: "INC_DEC"}
# After a line: its number and name, the pointer it concerns, and of that pointer all that the words say.
After = namedtuple("After", "line answer asked pointer holders owner_count others flight")
Life = namedtuple("Life", "pointer kind sender receiver third posted received")


def refusal_names():
    """Number and name, as document 01 writes them."""
    return {number: name.title().replace("_", "") for name, number in vars(refusals).items() if name.isupper() and number}


class SecondRun:
    """The states after each line, and the messages; `last` ends it after that line."""

    def __init__(self, text, last=None):
        reader = Reader(text)
        self.answer, self.desk = program.open_by_line(reader.next_line())
        self.after, self.messages, self.where = [], [], {}
        self.counted = []       # (pointer, line, site, count): each counter that a line changed
        self.held = []          # (pointer, site, first line, last line): each time that a site held; None at the end
        self.since = {}
        if self.desk is None:
            return
        self.since = {pair: 1 for pair in self.desk.holders}
        only = 0 if len(self.desk.owner_of) == 1 else None
        self.note(1, self.answer, only)
        line = 1
        while reader.position < len(text) and line != last:
            line += 1
            self.step(line, reader.next_call())

    def step(self, line, call):
        pointer = self.pointer_of(call)
        counts, holders = dict(self.desk.counts), set(self.desk.holders)
        answer = program.answer_to(self.desk, call)
        self.compare(line, counts, holders)
        if not answer.number:
            if isinstance(call, Receive):
                posted, message = self.where.pop(call.slot)
                self.messages.append(self.life(message, posted, line))
            if answer.message is not None:
                self.where[answer.value] = line, answer.message
        self.note(line, answer, pointer, isinstance(call, Ask))

    def compare(self, line, counts, holders):
        """Notes what a line changed."""
        for (site, pointer), count in self.desk.counts.items():
            if counts.get((site, pointer), 0) != count:
                self.counted.append((pointer, line, site, count))
        self.since.update({pair: line for pair in self.desk.holders - holders})
        for site, pointer in holders - self.desk.holders:
            self.held.append((pointer, site, self.since.pop((site, pointer)), line))

    def all_held(self):
        return sorted(self.held + [(pointer, site, line, None) for (site, pointer), line in self.since.items()], key=str)

    def life(self, message, posted, received):
        return Life(message.pointer, KINDS[message.kind], message.sender, message.receiver, message.third, posted, received)

    def output(self):
        """What desk must write."""
        return b"".join(program.answer_line(after.answer) for after in self.after)

    def all_messages(self):
        """Every message with the line of its receive, or None while it is in flight."""
        return sorted(self.messages + [self.life(message, posted, None) for posted, message in self.where.values()], key=str)

    def pointer_of(self, call):
        if isinstance(call, Refusal):
            return None
        if isinstance(call, Receive):
            message = self.desk.slots[call.slot] if call.slot < len(self.desk.slots) else None
            return message.pointer if message else None
        return call.pointer if call.pointer in self.desk.owner_of else None

    def note(self, line, answer, pointer, asked=False):
        if pointer is None:
            self.after.append(After(line, answer, asked, None, None, None, None, None))
            return
        desk, owner = self.desk, self.desk.owner_of[pointer]
        counts = {site: desk.count(site, pointer) for site in range(desk.sites)}
        self.after.append(After(
            line, answer, asked, pointer, [site for site in range(desk.sites) if desk.holds(site, pointer)], counts.pop(owner),
            {site: count for site, count in counts.items() if count},
            [(KINDS[m.kind], m.sender, m.receiver, m.third) for m in desk.in_flight() if m.pointer == pointer]))

    def shares(self, pointer):
        """Of the sites that are not the owner, those that are not 0."""
        shares = {site: machine.share_of(self.desk, site, pointer) for site in range(self.desk.sites) if not self.desk.owns(site, pointer)}
        return {site: share for site, share in shares.items() if share}

    def sheet(self, pointer):
        return {KINDS[kind]: {site: n for site, n in row.items() if n} for kind, row in machine.sheet(self.desk, pointer).rows.items()}


def random_input(seed, number):
    """Input NUMBER of SEED: 15 to 100 lines, one in twenty-five spoilt."""
    rng = random_runs.rng_for("story", seed, number)
    sites, slots = rng.choice([1, 2, 3, 3, 4, 5, 8, 17, 64]), rng.choice([0, 1, 2, 3, 5, 8, 16, 40, 300])
    owners = bytes(rng.randrange(sites) for _ in range(rng.choice([1, 1, 1, 2, 3, 8, 256])))
    desk = machine.open_desk(sites, owners, slots)
    walk = random_runs.Walk(rng, desk)
    lines = [random_runs.opening_digits(sites, slots, owners)]
    for _ in range(rng.randint(15, 100)):
        call = walk.next_call()
        line = line_of_call(call)
        if rng.random() < 0.04:
            line = random_runs.spoilt_line(rng, line)
        else:
            program.answer_to(desk, call)
        lines.append(line)
    return b"\n".join(lines) + b"\n"
