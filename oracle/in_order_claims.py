"""The claims in order: channels, links that deliver in order, and demand 3, after every call of a walk."""

import in_order
import lent_text
import paper
import tables
from claims import (
    ClaimFails, Tally, check_desk, check_empty_told, check_same_state, paper_message, receives_left, run_shape)
from in_order_tables import encode, number_of, slots_of, why_no_tables
from lines import Ask, Delete, MakeCopy, Receive, line_of_call
from ordered_calls import OrderedWalk, answer_in_order
from random_runs import opening_digits, rng_for

NUMBERS = 65536
SIDE_CONDITIONS = {MakeCopy: (4, 5), Delete: (5, 11, 12)}
# S, owners and slot count: each is walked to the end, queues taken as lists.
SMALL_DESKS = ((2, b"\0", 5), (2, b"\0\1", 3), (3, b"\2", 3), (4, b"\1", 2))


def check_channels(desk, tally):
    """From a to b: next to receive up to next to post minus 1, modulo 65,536, each once; by the raw bytes."""
    lent = encode(desk)
    numbers = {}
    for slot in slots_of(lent.pool):
        if slot[0]:
            numbers.setdefault(slot[1] * lent.sites + slot[2], []).append(number_of(slot))
    for place, (after, first) in enumerate(zip(lent.to_post, lent.to_receive)):
        wanted = [number % NUMBERS for number in range(first, first + (after - first) % NUMBERS)]
        tally.claim("channel", sorted(numbers.get(place, [])) == sorted(wanted), "pair", divmod(place, lent.sites))


def check_numbers(before, after, call, answer, tally):
    """What a call leaves in the pool and in both tables, by the raw bytes and plain numbers."""
    slots, to_post, to_receive = slots_of(before.pool), list(before.to_post), list(before.to_receive)
    if answer.number == 0 and not isinstance(call, Ask):
        if isinstance(call, Receive):
            handled = slots[call.slot]
            to_receive[handled[1] * before.sites + handled[2]] += 1
        slots[answer.value] = (0,) * 7
        if answer.message is not None:
            place = answer.message.sender * before.sites + answer.message.receiver
            slots[answer.value] = tuple(answer.message) + divmod(to_post[place], 256)
            to_post[place] += 1
    tally.claim("slots and their numbers", slots_of(after.pool) == slots, call, answer)
    for name, wanted, given in (("next to post", to_post, after.to_post),
                                ("next to receive", to_receive, after.to_receive)):
        tally.claim(name, tuple(number % NUMBERS for number in wanted) == given, call, answer)


def check_oldest(desk, tally):
    """The oldest message of each pair is received; another gives 21; nothing else is met."""
    oldest = {}
    for slot, message in enumerate(desk.slots):
        if message is not None:
            why = in_order.why_no_receive(desk, slot)
            tally.claim("only 21 in a receive", why in (0, 21), "slot", slot, "number", why)
            oldest.setdefault(message[1:3], []).append(why)
    for pair, numbers in oldest.items():
        tally.claim("one oldest message", numbers.count(0) == 1, "pair", pair)


def check_ordered_desk(desk, tally):
    check_desk(desk, tally)
    check_channels(desk, tally)
    check_oldest(desk, tally)


class OrderedRun:
    """A desk from an opening, links that deliver in order beside it, and every claim after every call."""

    def __init__(self, sites, owners, slots, start, tally):
        self.desk = in_order.open_desk(sites, owners, slots)
        for queue in self.desk.queues.values():
            queue.front = start
        self.twin = paper.LinkedMachine(enumerate(owners))
        self.on_link = {}           # slot -> the message there, as it stands on its link
        self.opening = opening_digits(sites, slots, owners)
        self.calls, self.tally = [], tally

    def twin_may(self, call):
        if isinstance(call, Receive):
            return self.twin.may_receive(self.on_link[call.slot])
        return (self.twin.may_make_copy if isinstance(call, MakeCopy) else self.twin.may_delete)(*call)

    def twin_step(self, call, slot):
        if isinstance(call, Receive):
            posted = self.twin.receive(self.on_link.pop(call.slot))
        else:
            posted = (self.twin.make_copy if isinstance(call, MakeCopy) else self.twin.delete)(*call)
        if posted is not None:
            self.on_link[slot] = self.twin.newest(posted)
        return posted

    def check_links(self, call, answer):
        """An accepted call is the step of the linked machine, and 21 is given just where it has no such step."""
        if isinstance(call, Ask) or answer.number in (3, 8):
            return
        refusals = (4, 21) if isinstance(call, Receive) else SIDE_CONDITIONS[type(call)]
        self.tally.claim("side condition of links", self.twin_may(call) == (answer.number not in refusals),
                         call, answer)
        if answer.number == 0:
            given = None if answer.message is None else paper_message(answer.message)
            self.tally.claim("message of links", self.twin_step(call, answer.value) == given, call, answer)

    def step(self, call):
        self.calls.append(call)
        empty, before = self.desk.slots.count(None), encode(self.desk)
        answer = answer_in_order(self.desk, call)
        check_numbers(before, encode(self.desk), call, answer, self.tally)
        self.tally.claim("9 is never given", answer.number != 9, call)
        check_empty_told(empty, self.desk, call, answer, self.tally)
        self.check_links(call, answer)
        check_same_state(self.desk, self.twin, self.tally)
        check_ordered_desk(self.desk, self.tally)

    def text(self):
        return b"\n".join([self.opening] + [line_of_call(call) for call in self.calls]).decode()


def drain(rng, desk, tally):
    """Receive in any order that the links allow, until the pool is empty."""
    desk, left = twin_of(desk), receives_left(desk)
    while desk.in_flight():
        ready = [slot for slot, held in enumerate(desk.slots)
                 if held is not None and in_order.why_no_receive(desk, slot) == 0]
        tally.claim("some slot can be received", bool(ready))
        in_order.receive(desk, rng.choice(ready))
        left -= 1
        tally.claim("pool empties in time", left >= receives_left(desk), "left", left)
    for pointer, owner in desk.owner_of.items():
        holding = sum((site, pointer) in desk.holders for site in range(desk.sites) if site != owner)
        tally.claim("quiet owner", desk.count(owner, pointer) == holding, pointer)


def random_run(seed, number, tally):
    """Run NUMBER of SEED, from numbers at 0 or about to wrap; a claim that fails is raised with what reproduces it."""
    rng = rng_for("claims in order", seed, number)
    sites, owners, slots, length = run_shape(rng)
    start = rng.choice([0, 65530, 65535, 32760, 250])
    run = OrderedRun(sites, owners, slots, start, tally)
    walk = OrderedWalk(rng, run.desk)
    try:
        check_ordered_desk(run.desk, tally)
        for _ in range(length):
            run.step(walk.next_call())
            if rng.random() < 0.02:
                drain(rng, run.desk, tally)
        drain(rng, run.desk, tally)
    except ClaimFails as failure:
        raise ClaimFails("seed %s, run %s, in order, all numbers from %d: %s\nreproduced by these lines:\n%s" % (
            seed, number, start, failure, run.text())) from None


def check_claims(seed, runs):
    tally = Tally()
    for number in range(runs):
        random_run(seed, number, tally)
    return tally


# Calls over good lent tables of any origin, by raw bytes, and against the base.

NAMED_CALLS = {"ordered_" + name: kind for name, kind in (
    ("copy", MakeCopy), ("receive", Receive), ("delete", Delete), ("ask", Ask))}


def without_numbers(lent):
    """The base's tables: the same slots, their numbers cut off."""
    pool = b"".join(bytes(slot[:5]) for slot in slots_of(lent.pool))
    return tables.Lent(*lent[:4], pool)


def out_of_order(lent, call):
    """Whether 21 is to be given, by the bytes of the slot and the table."""
    if not isinstance(call, Receive) or call.slot >= len(lent.pool) // 7:
        return False
    slot = slots_of(lent.pool)[call.slot]
    return slot[0] != 0 and number_of(slot) != lent.to_receive[slot[1] * lent.sites + slot[2]]


def check_ordered_call(lent_call, tally):
    """What the numbers become, 21 exactly where it is due, and elsewhere what the base does, but for 9."""
    lent, name = lent_call.parts, lent_call.name
    if name not in NAMED_CALLS or why_no_tables(lent):
        return
    call = NAMED_CALLS[name](*lent_call.arguments)
    answer, after = lent_text.PLAIN_CALLS[name](lent, *call)
    check_numbers(lent, after, call, answer, tally)
    tally.claim("21 where it is due", (answer.number == 21) == out_of_order(lent, call), call, answer)
    base = lent_text.PLAIN_CALLS[name.replace("ordered_", "")](without_numbers(lent), *call)
    if answer.number != 21 and base[0].number != 9:
        tally.claim("as the base", base == (answer, without_numbers(after)), call, answer)


# Every state of small desks, slot numbers and message numbers forgotten.

def queue_state(desk):
    queues = tuple(tuple(desk.slots[slot] for slot in sorted(queue.behind, key=queue.behind.get))
                   for _, queue in sorted(desk.queues.items()))
    return frozenset(pair for pair in desk.counts.items() if pair[1]), frozenset(desk.holders), queues


def twin_of(desk):
    twin = in_order.OrderedDesk(desk.sites, desk.owner_of.values(), 0)
    twin.counts, twin.holders, twin.slots = dict(desk.counts), set(desk.holders), list(desk.slots)
    for pair, queue in desk.queues.items():
        twin.queues[pair] = in_order.Queue(queue.front, queue.joins)
        twin.queues[pair].behind = dict(queue.behind)
    return twin


def all_calls(desk):
    """Every call that names what is there and can change something."""
    for pointer in desk.owner_of:
        for site in range(desk.sites):
            yield Delete(site, pointer)
            yield from (MakeCopy(site, other, pointer) for other in range(desk.sites))
    yield from map(Receive, range(len(desk.slots)))


def walk_every_state(sites, owners, slots, tally):
    """The number of states; each is checked."""
    first = in_order.open_desk(sites, owners, slots)
    known, waiting = {queue_state(first)}, [first]
    while waiting:
        desk = waiting.pop()
        check_ordered_desk(desk, tally)
        for call in all_calls(desk):
            after = twin_of(desk)
            if answer_in_order(after, call).number == 0 and queue_state(after) not in known:
                known.add(queue_state(after))
                waiting.append(after)
    return len(known)


def walk_small_desks(tally):
    return sum(walk_every_state(sites, owners, slots, tally) for sites, owners, slots in SMALL_DESKS)
