"""The program `desk` once more, by patterns over text and the paper's machine: a second opinion."""

import re

import paper

OPENING = re.compile(rb"(?:[0-9A-F]{2}){3,259}")
LINE = re.compile(rb"[0-9A-F]{8}")
KIND_DIGITS = {paper.COPY: "01", paper.DEC: "02", paper.INC_DEC: "03"}


def text_of(message):
    """A message of the paper as the ten digits of a slot."""
    if message is None:
        return "0" * 10
    name, s1, s2, gp = message[:4]
    third = message[4] if name == paper.INC_DEC else 0
    return KIND_DIGITS[name] + "%02X%02X%02X%02X" % (s1, s2, third, gp)


def answer_text(number, value=0, message=None):
    return "%02X%04X%s\n" % (number, value, text_of(message))


class SlottedMachine:
    """The paper's machine with numbered slots and the refusals of document 01."""

    def __init__(self, sites, slots, owners):
        self.machine = paper.Machine(enumerate(owners))
        self.sites, self.pointers = sites, len(owners)
        self.slots = {slot: None for slot in range(slots)}

    def named(self, sites, gp):
        return max(sites) < self.sites and gp < self.pointers

    def lowest_empty(self):
        return min((slot for slot, held in self.slots.items() if held is None), default=None)

    def make_copy(self, s1, s2, gp):
        if not self.named((s1, s2), gp):
            return answer_text(3)
        if not self.machine.may_make_copy(s1, s2, gp):
            return answer_text(4 if s1 == s2 else 5)
        return self.post(lambda: self.machine.make_copy(s1, s2, gp))

    def delete(self, s, gp, _):
        if not self.named((s,), gp):
            return answer_text(3)
        if not self.machine.may_delete(s, gp):
            if self.machine.owners[gp] == s:
                return answer_text(11)
            return answer_text(12 if (s, gp) in self.machine.rec_t else 5)
        return self.post(lambda: self.machine.delete(s, gp))

    def post(self, transition):
        slot = self.lowest_empty()
        if slot is None:
            return answer_text(7)
        self.slots[slot] = transition()
        return answer_text(0, slot, self.slots[slot])

    def receive(self, high, low, _):
        slot = high * 256 + low
        if slot not in self.slots:
            return answer_text(3)
        message = self.slots[slot]
        if message is None:
            return answer_text(8)
        if not self.machine.may_receive(message):
            return answer_text(9)
        self.slots[slot] = self.machine.receive(message)
        return answer_text(0, slot, self.slots[slot])

    def ask(self, s, gp, _):
        if not self.named((s,), gp):
            return answer_text(3)
        if self.machine.owners[gp] != s:
            return answer_text(13)
        return answer_text(0, int(self.machine.send_t[s, gp] == 0))


def answer_line(desk, line):
    """Length and digits, code, last byte: the order of document 01, 'Lines'."""
    if not LINE.fullmatch(line):
        return answer_text(14)
    code, *parts = bytes.fromhex(line.decode())
    if code >= 0x80:
        return answer_text(16)
    if code not in (1, 2, 3, 4):
        return answer_text(15)
    if code != 1 and parts[2]:
        return answer_text(14)
    return (desk.make_copy, desk.receive, desk.delete, desk.ask)[code - 1](*parts)


def transcript(text):
    """What `desk` must write, as bytes."""
    if len(text) > 8192:
        return answer_text(17).encode()
    if not text:
        return b""
    first, *rest = text.removesuffix(b"\n").split(b"\n")
    if not OPENING.fullmatch(first):
        return answer_text(14).encode()
    sites, high, low, *owners = bytes.fromhex(first.decode())
    slots = 256 * high + low
    if not 1 <= sites <= 64 or slots > 1024:
        return answer_text(1).encode()
    if any(owner >= sites for owner in owners):
        return answer_text(2).encode()
    desk = SlottedMachine(sites, slots, owners)
    return "".join([answer_text(0)] + [answer_line(desk, line) for line in rest]).encode()
