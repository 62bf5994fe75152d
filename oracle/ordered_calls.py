"""Calls of the in-order variant: the document's examples and the extremes, lent tables, and long runs."""

from itertools import count, islice

import in_order
from desk import COPY, DEC, EMPTY, INC_DEC
from in_order_tables import OrderedLent, decode, encode
from lent_fixed import FULL, tables_of, without_cell
from lent_tables import CALL_MAKERS, DAMAGES, damage_pool_length, pick, random_draft
from lent_text import PLAIN_CALLS, LentCall, line_of
from lines import Ask, Delete, MakeCopy, Receive
from random_runs import Walk, rng_for

NUMBERS = 65536
NO_SLOT = (0, 0, 0, 0, 0, 0)
RUN_LENGTH, CALLS_BETWEEN_RUNS = 350, 150
CALL_NAMES = {MakeCopy: "ordered_copy", Receive: "ordered_receive", Delete: "ordered_delete", Ask: "ordered_ask"}


# The same for every seed.

def ordered_of(sites, owners, counts=(), holders=(), slots=(), to_post=(), to_receive=()):
    """Good tables from few words: a slot is a message and its number; numbers as {(a, b): number}."""
    base = tables_of(sites, owners, counts, holders)
    pool = b"".join(bytes(slot[:5]) + slot[5].to_bytes(2, "big") for slot in slots)
    numbers = [tuple(dict(table).get((a, b), 0) for a in range(sites) for b in range(sites))
               for table in (to_post, to_receive)]
    return OrderedLent(*base._replace(pool=pool), *numbers)


def opened(sites, owners, slots):
    return encode(in_order.open_desk(sites, bytes(owners), slots))


def story(lent, *calls):
    """Calls one after the other from lent tables on, each over what the one before left."""
    made = []
    for name, *arguments in calls:
        made.append(("ordered_" + name, lent, tuple(arguments)))
        _, lent = PLAIN_CALLS["ordered_" + name](lent, *arguments)
    return made


def document_examples():
    """Base 9 and here 0; base 0 and here 21; numbers that wrap; 21 before 4 and before 10."""
    both = {(0, 1): FULL}
    two = ordered_of(2, [0], slots=[NO_SLOT] * 2, to_post=both, to_receive=both)
    loop = (COPY, 1, 1, 0, 0, 5)
    dec = (DEC, 1, 0, 0, 0, 9)
    calls = story(opened(3, [0], 4), ("copy", 0, 1, 0), ("receive", 0), ("copy", 0, 2, 0), ("receive", 0),
                  ("delete", 1, 0), ("copy", 2, 1, 0), ("receive", 1), ("receive", 0), ("receive", 1), ("ask", 0, 0))
    calls += story(opened(2, [0, 0], 4), ("copy", 0, 1, 0), ("copy", 0, 1, 1), ("receive", 1), ("receive", 0),
                   ("receive", 1), ("receive", 1))
    calls += story(two, ("copy", 0, 1, 0), ("copy", 0, 1, 0), ("copy", 0, 1, 0), ("receive", 1), ("receive", 0),
                   ("receive", 1), ("receive", 1))
    for message, counts in ((loop, {}), (dec, {}), (dec, {(0, 0): 1})):
        for following in (0, message[5] - 1, message[5], message[5] + 1):
            lent = ordered_of(2, [0], counts, slots=[message], to_receive={message[1:3]: following})
            calls.append(("ordered_receive", lent, (0,)))
    return calls


def turned_down():
    """21 before 4, 10 and 6, alone and not at all; after 8 and 3; an INC_DEC of the pair holds no DEC back."""
    lents = []
    for message in ((COPY, 1, 1, 0, 0), (COPY, 0, 1, 0, 0), (DEC, 1, 0, 0, 0), (INC_DEC, 1, 0, 2, 0),
                    (DEC, 2, 2, 0, 0)):
        pair = message[1:3]
        for counter in (0, 1, FULL):
            for number, following in ((0, 0), (7, 7), (7, 6), (6, 7), (FULL, FULL), (0, FULL), (FULL, 0),
                                      (0x0102, 0x0201), (0x0101, 1), (1, 0x0101), (32768, 0), (0, 32768)):
                lents.append(ordered_of(3, [0], {(pair[1], 0): counter}, slots=[message + (number,), NO_SLOT],
                                        to_post={pair: number}, to_receive={pair: following}))
    held = [ordered_of(4, [0, 0], {(0, 0): 1}, slots=[(DEC, 1, 0, 0, 0, 3), (INC_DEC, 1, 0, 3, pointer, number)],
                       to_receive={(1, 0): 3}) for pointer in (0, 1) for number in (2, 3, 4)]
    return ([("ordered_receive", lent, (0,)) for lent in lents + held]
            + [("ordered_receive", lent, (slot,)) for lent in held[:2] + lents[:2] for slot in (1, 2, 256, 65535)]
            + [("ordered_receive", opened(2, [0], 0), (0,))])


def pairs_apart():
    """Each pair has its own numbers: other pairs, the pair turned round, the diagonal, other kinds and pointers."""
    every = {(a, b): 10 * a + b for a in range(4) for b in range(4)}
    calls = []
    for message in ((COPY, 1, 3, 0, 0), (COPY, 0, 1, 0, 1), (DEC, 3, 0, 0, 0), (INC_DEC, 3, 0, 1, 0),
                    (INC_DEC, 2, 1, 3, 1), (INC_DEC, 1, 1, 1, 0), (INC_DEC, 1, 0, 1, 0), (INC_DEC, 0, 0, 0, 1)):
        own, turned, next_to = every[message[1:3]], every[message[2:0:-1]], every[message[1], (message[2] + 1) % 4]
        for number in (own, turned, next_to):
            for held in ([], [(3, 0), (1, 1)]):
                lent = ordered_of(4, [0, 2], {(0, 0): 1}, held, [message + (number,), NO_SLOT],
                                  {pair: (number + 1) % NUMBERS for pair, number in every.items()}, every)
                calls.append(("ordered_receive", lent, (0,)))
    most = {pair: FULL for pair in every}
    for numbers in (every, most):
        lent = ordered_of(4, [0, 2], {}, [(1, 0), (3, 1)], [NO_SLOT] * 2, numbers, every)
        calls += [("ordered_copy", lent, names) for names in ((1, 3, 0), (0, 2, 0), (3, 1, 1))]
        calls += [("ordered_delete", lent, names) for names in ((1, 0), (3, 1))]
    return calls


def replies():
    """A reply has the number of its own pair, wraps it, and takes the handled slot."""
    calls = []
    for start in (0, 255, 256, 32767, FULL):
        numbers = {(a, b): (start + 16 * a + b) % NUMBERS for a in range(4) for b in range(4)}
        if start in (32767, FULL):
            numbers = dict.fromkeys(numbers, start)
        for message, holders in (((COPY, 1, 3, 0, 0), [(3, 0)]), ((COPY, 1, 3, 0, 0), []), ((COPY, 0, 3, 0, 0), []),
                                 ((COPY, 0, 3, 0, 0), [(3, 0)]), ((COPY, 1, 0, 0, 0), []), ((INC_DEC, 3, 0, 1, 0), []),
                                 ((INC_DEC, 1, 1, 1, 0), []), ((INC_DEC, 1, 2, 2, 0), []), ((DEC, 1, 0, 0, 0), [])):
            lent = ordered_of(4, [0], {(0, 0): 3}, holders, [NO_SLOT, message + (numbers[message[1:3]],), NO_SLOT],
                              numbers, numbers)
            calls.append(("ordered_receive", lent, (1,)))
    ownerless = without_cell(ordered_of(4, [0], slots=[(COPY, 1, 0, 0, 0, 0)], to_post={(0, 0): 9}), 0, 0)
    return calls + [("ordered_receive", ownerless, (0,))]


def shapes():
    """Every length one too short and one too long, slots of five bytes, and numbers in empty slots."""
    good = ordered_of(3, [0, 1], holders=[(1, 0)], slots=[NO_SLOT, (INC_DEC, 1, 0, 2, 0, 500)],
                      to_post={(1, 0): 501}, to_receive={(1, 0): 500})
    lents = [good, good._replace(sites=2), good._replace(sites=0), good._replace(sites=64), good._replace(sites=65),
             good._replace(to_post=(), to_receive=())]
    for part in ("owners", "receive", "pool"):
        held = getattr(good, part)
        lents += [good._replace(**{part: held[:-1]}), good._replace(**{part: held + b"\0"})]
    for part in ("send", "to_post", "to_receive"):
        held = getattr(good, part)
        lents += [good._replace(**{part: held[:-1]}), good._replace(**{part: held + (0,)}), good._replace(**{part: ()})]
    pools = [bytes(length) for length in (1, 5, 6, 7, 8, 10, 35, 7 * 1024, 7 * 1024 + 1, 7 * 1025)]
    pools += [bytes(at) + b"\1" + bytes(6 - at) for at in range(7)] + [bytes(6) + b"\xff", bytes(5) + b"\xff\0"]
    full = bytes((COPY, 0, 1, 0, 0))
    pools += [full + tail for tail in (b"\0\0", b"\0\1", b"\1\0", b"\xff\xff", b"\0", b"")]
    bad_slots = ((4, 0, 0, 0, 0), (COPY, 3, 0, 0, 0), (DEC, 0, 3, 0, 0), (DEC, 0, 1, 1, 0), (INC_DEC, 0, 1, 3, 0),
                 (COPY, 0, 1, 0, 2))
    pools += [bytes(slot) + b"\0\0" for slot in bad_slots]
    lents += [good._replace(pool=pool) for pool in pools]
    lents += [good._replace(owners=b"\0\3"), good._replace(owners=b"\0\xff"), good._replace(receive=b"\1\0\2\0\0\0"),
              good._replace(receive=b"\1\0\2\0\0\0", to_post=good.to_post[:-1]),
              good._replace(to_post=(FULL,) * 9, to_receive=(FULL,) * 9)]
    some = [("ordered_open", ()), ("ordered_copy", (0, 1, 0)), ("ordered_receive", (1,)), ("ordered_delete", (1, 0)),
            ("ordered_ask", (0, 0)), ("ordered_share", (1, 0)), ("ordered_sheet", (0, 192))]
    calls = [(name, lent, names) for lent in lents for name, names in some]
    others = [ordered_of(4, [0] * 6), ordered_of(1, [0]), ordered_of(1, [])]
    return calls + [(name, lent, names) for name, names in some for lent in others]


def other_questions():
    """Asks, shares and sheets look at no number; names; a count of empty slots."""
    slots = [(COPY, 1, 2, 0, 0, 9), (DEC, 1, 2, 0, 0, 9), (INC_DEC, 1, 0, 3, 0, 1), (DEC, 1, 0, 0, 0, 0), NO_SLOT,
             (COPY, 0, 1, 0, 0, FULL), NO_SLOT, (COPY, 0, 1, 0, 1, 3)]
    lent = ordered_of(4, [0, 2], {(1, 0): 0, (0, 0): 256}, [(1, 0)], slots)
    low = ordered_of(2, [0], slots=[(INC_DEC, 1, 0, 1, 0, 7)] * 1024)
    calls = [("share", (1, 0)), ("share", (0, 0)), ("share", (4, 0)), ("share", (1, 2)), ("share", (3, 1)),
             ("sheet", (0, 192)), ("sheet", (1, 192)), ("sheet", (2, 192)), ("sheet", (0, 191)), ("sheet", (9, 0)),
             ("ask", (0, 0)), ("ask", (2, 1)), ("ask", (1, 0)), ("ask", (4, 0)), ("delete", (1, 0)), ("delete", (2, 0)),
             ("delete", (0, 0)), ("copy", (1, 2, 0)), ("copy", (1, 1, 0)), ("copy", (2, 1, 0)), ("copy", (4, 0, 0))]
    calls = [("ordered_" + name, lent, names) for name, names in calls]
    owners = [(7 * pointer) % 64 for pointer in range(256)]
    owners[255] = 63
    last = ordered_of(64, owners, {(62, 255): 3}, [(62, 255)],
                      [(INC_DEC, 62, 63, 63, 255, 0)] + [NO_SLOT] * 1022 + [(COPY, 62, 61, 0, 255, FULL)],
                      {(62, 61): 0, (62, 63): 1, (61, 63): FULL}, {(62, 61): FULL})
    return calls + [("ordered_share", low, (1, 0)), ("ordered_sheet", low, (0, 192)),
                    ("ordered_copy", opened(2, [0], 1024), (0, 1, 0)), ("ordered_copy", low, (0, 1, 0)),
                    ("ordered_copy", last, (62, 63, 255)), ("ordered_receive", last, (1023,)),
                    ("ordered_receive", last, (0,)), ("ordered_open", last, ())]


def numbers_by_pair(sites, start):
    """A number of its own for each pair: `start` at the pair (S - 2, S - 1), one more at each next pair."""
    return {(a, b): (start + sites * (a + 2 - sites) + b + 1 - sites) % NUMBERS
            for a in range(sites) for b in range(sites)}


def crowd(owner, holder, other, pointer, length):
    """Messages of every kind for two pointers, most of them between the holder and the owner, with any numbers."""
    some = ((INC_DEC, holder, owner, other, pointer), (DEC, holder, owner, 0, pointer),
            (COPY, owner, holder, 0, pointer), (COPY, other, holder, 0, 0), (DEC, owner, holder, 0, pointer),
            (DEC, other, holder, 0, pointer), (COPY, owner, holder, 0, pointer))
    return [some[place % len(some)] + (257 * place % NUMBERS,) for place in range(length)]


def accepted_at(sites, pointers, slots):
    """All seven calls accepted at the last sites and pointer, in a pool with one slot left and in an empty one."""
    owner, holder, other, pointer = sites - 1, sites - 2, 0, pointers - 1
    owners = [7 * number % sites for number in range(pointer)] + [owner]
    tables = (numbers_by_pair(sites, 255), numbers_by_pair(sites, FULL))

    def lent_with(pool, counter):
        return ordered_of(sites, owners, {(owner, pointer): counter}, [(holder, pointer)], pool, *tables)
    others = crowd(owner, holder, other, pointer, slots - 1)
    crowded, quiet = lent_with(others + [NO_SLOT], 256), lent_with([NO_SLOT] * slots, 0)
    calls = [("ordered_open", crowded, ())]
    for lent in (crowded, quiet):
        calls += [("ordered_copy", lent, (holder, other, pointer)), ("ordered_delete", lent, (holder, pointer)),
                  ("ordered_ask", lent, (owner, pointer)), ("ordered_share", lent, (holder, pointer)),
                  ("ordered_sheet", lent, (pointer, 192))]
    for message in ((COPY, owner, other, 0, pointer), (COPY, owner, holder, 0, pointer),
                    (COPY, holder, other, 0, pointer), (INC_DEC, holder, owner, other, pointer),
                    (DEC, holder, owner, 0, pointer)):
        last = message + (tables[1][message[1:3]],)
        calls.append(("ordered_receive", lent_with(others + [last], 256), (slots - 1,)))
    return calls


def accepted_at_one_site(pointers, slots):
    """The calls that one site can have accepted: a make copy there gives 4, a delete and a share 11."""
    pointer, numbers = pointers - 1, ({(0, 0): 255}, {(0, 0): FULL})
    kinds = [(DEC, 0, 0, 0, pointer, FULL), (INC_DEC, 0, 0, 0, pointer, FULL)]
    lents = [ordered_of(1, [0] * pointers, {(0, pointer): 1}, (), [NO_SLOT] * (slots - 1) + [last], *numbers)
             for last in kinds]
    quiet = ordered_of(1, [0] * pointers, slots=[NO_SLOT] * slots)
    return ([("ordered_receive", lent, (slots - 1,)) for lent in lents]
            + [("ordered_ask", lent, (0, pointer)) for lent in (lents[0], quiet)]
            + [("ordered_sheet", lent, (pointer, 192)) for lent in lents] + [("ordered_open", lents[1], ())])


def largest_and_smallest():
    """Each call accepted at S = 64, G = 256, 1,024 slots, all three, and G = 1; at S = 1 where it can be."""
    sizes = ((64, 1, 8), (3, 256, 8), (3, 1, 1024), (64, 256, 1024))
    return ([call for size in sizes for call in accepted_at(*size)]
            + [call for size in ((1, 1), (256, 1024)) for call in accepted_at_one_site(*size)])


def fixed_calls():
    groups = (document_examples, turned_down, pairs_apart, replies, shapes, other_questions, largest_and_smallest)
    return [LentCall(*call) for group in groups for call in group()]


# Seeded lent tables: a draft of the base, and numbers beside it.

class Numbers:
    """A number for each slot, and the two tables; about 0, about 65,535, or anywhere."""

    def __init__(self, rng, draft):
        self.rng, self.sites, self.slots = rng, draft.sites, draft.slots
        near = rng.choice([(0, 1, 2), (FULL, FULL, FULL - 1, 0), (255, 256, 0x0102, 0x0201, 32767), None])
        self.to_receive = [self.any_number() if near is None else rng.choice(near) for _ in range(draft.sites ** 2)]
        apart = rng.choice([(0, 0, 0, 1, FULL), (0, 1, 2, 3), (self.any_number(), self.any_number())])
        self.to_post = [(number + rng.choice(apart)) % NUMBERS for number in self.to_receive]
        self.of_slot = [self.near_next(slot) for slot in draft.slots]
        self.tail = 0               # bytes too many, or too few, at the end of the pool

    def any_number(self):
        return self.rng.randrange(NUMBERS)

    def next_of(self, slot):
        return self.to_receive[slot[1] * self.sites + slot[2]]

    def near_next(self, slot):
        """A number at its pair's next, just off it, or anywhere; 0 in an empty slot."""
        if slot[0] == EMPTY:
            return 0
        return (self.next_of(slot) + self.rng.choice([0, 0, 0, 1, 2, FULL, 256, self.any_number()])) % NUMBERS

    def make_receivable(self, place):
        """Mostly the next number; else one that is the next of something else."""
        slot, rng = self.slots[place], self.rng
        right, turned = self.next_of(slot), slot[2] * self.sites + slot[1]
        others = [self.to_receive[turned], self.to_post[slot[1] * self.sites + slot[2]], self.to_post[turned],
                  right % 256 * 256 + right // 256, right + 1, right - 1, 0, rng.choice(self.to_receive)]
        self.of_slot[place] = right if rng.random() < 0.75 else rng.choice(others) % NUMBERS

    def pool(self, slots):
        data = b"".join(bytes(slot) + number.to_bytes(2, "big") for slot, number in zip(slots, self.of_slot))
        return data[:self.tail] if self.tail < 0 else data + bytes(self.tail)


def damage_numbers(rng, numbers):
    """A number in an empty slot, a table or the pool of another length."""
    way = rng.randrange(3)
    if way == 0 and numbers.of_slot:
        numbers.of_slot[rng.randrange(len(numbers.of_slot))] = rng.choice([1, 255, 256, FULL])
    elif way == 1:
        numbers.tail = rng.choice([1, 2, 5, 6, -1, -2, -5])
    else:
        table = rng.choice([numbers.to_post, numbers.to_receive])
        if table and rng.random() < 0.5:
            table.pop()
        else:
            table.append(0)


ORDERED_DAMAGES = tuple(pair for pair in DAMAGES if pair[0] is not damage_pool_length)


def random_ordered_call(rng):
    draft = random_draft(rng)
    name, arguments = pick(rng, CALL_MAKERS)(rng, draft)
    numbers = Numbers(rng, draft)
    if name == "receive" and arguments[0] < len(draft.slots) and draft.slots[arguments[0]][0] != EMPTY:
        numbers.make_receivable(arguments[0])
    for _ in range(rng.choice([0, 0, 0, 0, 0, 0, 0, 1, 1, 2])):
        if rng.random() < 0.4:
            damage_numbers(rng, numbers)
        else:
            pick(rng, ORDERED_DAMAGES)(rng, draft)
    base = draft.lent()._replace(pool=numbers.pool(draft.slots))
    lent = OrderedLent(*base, tuple(numbers.to_post), tuple(numbers.to_receive))
    return LentCall("ordered_" + name, lent, arguments)


# Long runs from an opening, or from an empty desk whose numbers are about to wrap.

class OrderedWalk(Walk):
    """Chooses calls for a desk with queues."""

    def why_no_receive(self, slot):
        return in_order.why_no_receive(self.desk, slot)


def start_of_run(rng):
    """An opened desk; often each pair starts a little below 65,535 in place of 0."""
    sites, pointers = rng.choice([2, 2, 3, 3, 4, 5]), rng.choice([1, 1, 2, 3])
    owners = bytes(rng.randrange(sites) for _ in range(pointers))
    desk = in_order.open_desk(sites, owners, rng.choice([2, 4, 6, 9, 16]))
    if rng.random() < 0.75:
        for queue in desk.queues.values():
            queue.front = NUMBERS - rng.choice([1, 2, 3, 5, 12])
    return encode(desk)


def run_calls(rng, length):
    """Calls of a run, each over what the one before left; now and then a question between them."""
    lent = start_of_run(rng)
    desk = decode(lent)
    walk = OrderedWalk(rng, desk)
    for _ in range(length):
        if rng.random() < 0.05:
            pointer = walk.a_pointer()
            yield rng.choice([LentCall("ordered_share", lent, (walk.a_site(), pointer)),
                              LentCall("ordered_sheet", lent, (pointer, 192))])
        call = walk.next_call()
        yield LentCall(CALL_NAMES[type(call)], lent, tuple(call))
        answer_in_order(desk, call)
        lent = encode(desk)


def answer_in_order(desk, call):
    calls = {MakeCopy: in_order.make_copy, Receive: in_order.receive, Delete: in_order.delete, Ask: in_order.ask}
    return calls[type(call)](desk, *call)


def all_calls(seed):
    """The fixed calls, then single calls and runs by turns, without end."""
    yield from fixed_calls()
    for number in count():
        rng = rng_for("ordered", seed, number)
        for _ in range(CALLS_BETWEEN_RUNS):
            yield random_ordered_call(rng)
        yield from run_calls(rng, RUN_LENGTH)


def ordered_lines(seed, wanted):
    """That many calls as lines of text."""
    for number, call in enumerate(islice(all_calls(seed), wanted)):
        rng = rng_for("ordered text", seed, number)
        yield line_of(call, lambda: rng.choice(["-", "null"]))
