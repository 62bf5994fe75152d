"""The books of a run: who holds, what is counted, what is in flight. Kept from accepted answers alone; no rule of refusal stands here."""

from .forms import ASK, COPY, DEC, DELETE, INC_DEC, KINDS, MAKE_COPY, RECEIVE


class CannotBe(Exception):
    """An answer that these books cannot take in: its words say why."""


def whole(count, name):
    """3 sites, 1 pointer."""
    return "%s %s%s" % (format(count, ","), name, "" if count == 1 else "s")


def range_words(count, name):
    """The sites are 0 to 2; the only pointer is 0; there is no slot."""
    if count == 0:
        return "there is no %s" % name
    return "the only %s is 0" % name if count == 1 else "the %ss are 0 to %s" % (name, format(count - 1, ","))


class Pointer:
    """One pointer: its owner, who holds it, the counters, the messages in flight by slot and how many there are of each kind."""

    def __init__(self, owner):
        self.owner = owner
        self.holders = {owner}
        self.counts = {}
        self.flight = {}
        self.kinds = {kind: 0 for kind in KINDS}

    def count(self, site):
        return self.counts.get(site, 0)


class Books:
    """All pointers, and the slots."""

    def __init__(self, opening):
        self.sites, self.slot_count = opening.sites, opening.slots
        for pointer, owner in enumerate(opening.owners):
            if owner >= self.sites:
                raise CannotBe("pointer %d is owned by site %d, and %s" % (pointer, owner, range_words(self.sites, "site")))
        self.pointers = [Pointer(owner) for owner in opening.owners]
        self.slots = {}         # slot -> the message in it
        self.last = {}          # slot -> the message that was received from it last
        self.given_up = {}      # (site, pointer) -> the line of its last delete
        self.messages = []      # every message, in the order of posting

    def outside(self, call):
        """What a call names that this desk does not have, in words; None where it has all of it."""
        named = ((call.site, self.sites, "site"), (call.to, self.sites, "site"),
                 (call.pointer, len(self.pointers), "pointer"), (call.slot, self.slot_count, "slot"))
        return "; ".join("%s %s is named, and %s" % (name, format(number, ","), range_words(limit, name))
                         for number, limit, name in named if number is not None and number >= limit) or None

    def pointer_of(self, call):
        """The pointer that a call concerns: the one it names, or that of the message in the slot it names."""
        if call.slot is not None:
            message = self.slots.get(call.slot)
            return message.pointer if message else None
        return call.pointer if call.pointer is not None and call.pointer < len(self.pointers) else None

    def raise_count(self, pointer, site, step):
        """The counter after a step, as (site, count); one that would fall below 0 cannot be."""
        counts = self.pointers[pointer].counts
        after = counts.get(site, 0) + step
        if after < 0:
            raise CannotBe("it would take 1 from the counter of site %d, which is 0" % site)
        counts[site] = after
        return site, after

    def post(self, message, slot, line):
        """Puts a posted message into its slot."""
        self.slots[slot] = message
        message.slot, message.posted = slot, line
        pointer = self.pointers[message.pointer]
        pointer.flight[slot] = message
        pointer.kinds[message.kind] += 1
        self.messages.append(message)

    def take(self, slot, line):
        """Takes a received message out of its slot."""
        message = self.slots.pop(slot)
        message.received = line
        self.last[slot] = message
        pointer = self.pointers[message.pointer]
        del pointer.flight[slot]
        pointer.kinds[message.kind] -= 1
        return message

    def accept(self, call, answer, line):
        """Takes in an accepted call; gives the counter that changed, as (site, count), or None."""
        outside = self.outside(call)
        if outside:
            raise CannotBe(outside)
        self.look_at_form(answer)
        return EFFECTS[call.verb](self, call, answer, line)

    def look_at_form(self, answer):
        """A posted message is one that a slot of this desk can hold."""
        message = answer.message
        if message is None:
            return
        if message.kind not in KINDS:
            raise CannotBe("the posted message has kind %d, and the kinds are 1 to %d" % (message.kind, max(KINDS)))
        if max(message.sender, message.receiver, message.third) >= self.sites:
            raise CannotBe("it posts %s, and %s" % (message.words(), range_words(self.sites, "site")))
        if message.pointer >= len(self.pointers):
            raise CannotBe("it posts a message for pointer %d, and %s" % (
                message.pointer, range_words(len(self.pointers), "pointer")))

    def look_at_post(self, answer, kind, sender, receiver, pointer):
        """A call that posts: its message, into an empty slot of the pool."""
        message, slot = answer.message, answer.value
        if message is None:
            raise CannotBe("it posts no message")
        if (message.kind, message.sender, message.receiver, message.third, message.pointer) != (kind, sender, receiver, 0, pointer):
            raise CannotBe("it posts %s for pointer %d" % (message.words(), message.pointer))
        if slot >= self.slot_count:
            raise CannotBe("it posts into slot %d, and %s" % (slot, range_words(self.slot_count, "slot")))
        if slot in self.slots:
            raise CannotBe("it posts into slot %d, which still holds %s, posted at line %d" % (
                slot, self.slots[slot].words(), self.slots[slot].posted))


def copies(books, call, answer, line):
    books.look_at_post(answer, COPY, call.site, call.to, call.pointer)
    books.post(answer.message, answer.value, line)
    return books.raise_count(call.pointer, call.site, +1)


def deletes(books, call, answer, line):
    pointer = books.pointers[call.pointer]
    books.look_at_post(answer, DEC, call.site, pointer.owner, call.pointer)
    pointer.holders.discard(call.site)
    books.given_up[call.site, call.pointer] = line
    books.post(answer.message, answer.value, line)


def asks(books, call, answer, line):
    if answer.message is not None:
        raise CannotBe("an ask posts nothing, and it posts %s" % answer.message.words())
    pointer = books.pointers[call.pointer]
    count = pointer.count(pointer.owner)
    if answer.value != (count == 0):
        raise CannotBe("ask says %s, and the owner's counter is %d" % ({0: "no", 1: "yes"}.get(answer.value, answer.value), count))


def receives(books, call, answer, line):
    """What was in the slot does its work at its receiver; what is posted takes the slot."""
    handled, reply = books.slots.get(call.slot), answer.message
    if handled is None:
        raise CannotBe("a message is received from slot %d, and none was posted there" % call.slot)
    if answer.value != call.slot:
        raise CannotBe("slot %d is received, and the answer names slot %d" % (call.slot, answer.value))
    if reply and (reply.sender, reply.pointer) != (handled.receiver, handled.pointer):
        raise CannotBe("site %d receives for pointer %d, and the answer posts %s for pointer %d" % (
            handled.receiver, handled.pointer, reply.words(), reply.pointer))
    changed = ARRIVALS[handled.kind](books, handled)
    books.take(call.slot, line)
    if reply:
        books.post(reply, call.slot, line)
    return changed


def copy_arrives(books, message):
    books.pointers[message.pointer].holders.add(message.receiver)


# What each verb and each arriving kind does to the books; a new call is one more row.
EFFECTS = {MAKE_COPY: copies, RECEIVE: receives, DELETE: deletes, ASK: asks}
ARRIVALS = {
    COPY: copy_arrives,
    DEC: lambda books, message: books.raise_count(message.pointer, message.receiver, -1),
    INC_DEC: lambda books, message: books.raise_count(message.pointer, message.receiver, +1),
}
