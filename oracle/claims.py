"""The paper's lemmas, demand 3 and request Seven, checked by counting after every call of a walk."""

import copy
from collections import Counter

import desk as machine
import paper
from desk import COPY, DEC, INC_DEC
from lines import Ask, Delete, MakeCopy, Receive, line_of_call
from program import answer_to
from random_runs import Walk, opening_digits, rng_for

MOST_NOT_OWNER, MOST_OWNER = 1024, 1087
# Accepted receives that a message still needs, at most (request Seven).
RECEIVES_LEFT = {COPY: 3, INC_DEC: 2, DEC: 1}
# Refusals that stand for a side condition of the paper's Figures 8 and 9.
SIDE_CONDITIONS = {MakeCopy: (4, 5), Receive: (4, 9), Delete: (5, 11, 12)}
KIND_NAMES = {COPY: paper.COPY, DEC: paper.DEC, INC_DEC: paper.INC_DEC}


class ClaimFails(Exception):
    """A claim that does not hold, in words."""


class Tally:
    """How often each claim was checked, and the greatest counters met."""

    def __init__(self):
        self.checks, self.greatest_owner, self.greatest_other = Counter(), 0, 0

    def claim(self, name, holds, *details):
        self.checks[name] += 1
        if not holds:
            raise ClaimFails("%s fails: %s" % (name, " ".join(map(str, details))))

    def report(self):
        names = ", ".join("%s %d" % pair for pair in sorted(self.checks.items()))
        return "%d checks (%s); greatest counters: owner %d, others %d" % (
            sum(self.checks.values()), names, self.greatest_owner, self.greatest_other)


# One pointer of a desk, counted out by hand.

def held_by(desk, pointer):
    return [site for site in range(desk.sites) if (site, pointer) in desk.holders]


def naming(desk, pointer):
    return [message for message in desk.slots if message is not None and message.pointer == pointer]


def under_control(message):
    """The site whose counter a message acts on: Definition 3."""
    return {COPY: message.sender, DEC: message.receiver, INC_DEC: message.third}[message.kind]


def shares_by_site(desk, pointer, messages):
    """The share of every site that is not the owner, from one walk over the messages."""
    owner = desk.owner_of[pointer]
    shares = {site: int((site, pointer) in desk.holders)
              for site in range(desk.sites) if site != owner}
    for message in messages:
        if message.kind == DEC and message.receiver == owner:
            shares[message.sender] += 1
        if message.kind == COPY and message.sender == owner:
            shares[message.receiver] += 1
        if message.kind == INC_DEC and message.receiver == owner:
            shares[message.sender] -= 1
    return shares


def check_sums(desk, pointer, messages, tally):
    """Lemmas 2 and 5."""
    owner = desk.owner_of[pointer]
    holders = len(held_by(desk, pointer))
    counters = sum(desk.count(site, pointer) for site in range(desk.sites))
    weights = sum(message.kind in (COPY, DEC) for message in messages)
    tally.claim("lemma 2", counters == holders - 1 + weights, "pointer", pointer)
    at_owner = sum(message.kind in (COPY, DEC) and under_control(message) == owner
                   for message in messages)
    increments = sum(message.kind == INC_DEC and message.receiver == owner for message in messages)
    tally.claim("lemma 5", desk.count(owner, pointer) == holders - 1 + at_owner - increments,
                "pointer", pointer)


def check_others(desk, pointer, messages, tally):
    """Lemma 4, also by the sheet's three rows, and the bound at a site that is not the owner."""
    acting = Counter(under_control(message) for message in messages)
    number, sheet_rows = machine.sheet(desk, pointer)
    sheet = machine.sheet_counts(sheet_rows)
    columns = [sum(column) for column in zip(sheet[:64], sheet[64:128], sheet[128:])]
    tally.claim("sheet", number == 0 and len(columns) == 64 and not any(columns[desk.sites:]), "pointer", pointer)
    tally.claim("sheet's entries", sum(columns) == len(messages) <= len(desk.slots), "pointer", pointer)
    for site in range(desk.sites):
        if site != desk.owner_of[pointer]:
            count = desk.count(site, pointer)
            tally.claim("lemma 4", count == acting[site], "site", site, "pointer", pointer)
            tally.claim("sheet's column", count == columns[site], "site", site, "pointer", pointer)
            tally.claim("bound 1024", 0 <= count <= MOST_NOT_OWNER, "site", site, "count", count)
            tally.greatest_other = max(tally.greatest_other, count)


def check_shares(desk, pointer, messages, tally):
    """No share is negative, and the owner's counter is their sum."""
    shares = shares_by_site(desk, pointer, messages)
    count = desk.count(desk.owner_of[pointer], pointer)
    for site, share in shares.items():
        tally.claim("share", share >= 0, "site", site, "pointer", pointer, "share", share)
    tally.claim("sum of shares", count == sum(shares.values()), "pointer", pointer, "count", count)
    tally.claim("bound 1087", 0 <= count <= MOST_OWNER, "pointer", pointer, "count", count)
    tally.greatest_owner = max(tally.greatest_owner, count)
    for site in list(shares)[:2]:
        tally.claim("share call", machine.share(desk, site, pointer) == (0, shares[site]), site)


def check_demand_three(desk, pointer, messages, tally):
    """The owner's counter is 0, and ask says 1, exactly when no other holds and nothing is in flight."""
    owner = desk.owner_of[pointer]
    alone = held_by(desk, pointer) == [owner] and not messages
    tally.claim("demand 3", (desk.count(owner, pointer) == 0) == alone, "pointer", pointer)
    tally.claim("ask", machine.ask(desk, owner, pointer) == (0, int(alone), None, 0), "pointer", pointer)


def check_desk(desk, tally):
    """Every claim about a desk reached from an opening, for every pointer."""
    for pointer in desk.owner_of:
        messages = naming(desk, pointer)
        for check in (check_sums, check_others, check_shares, check_demand_three):
            check(desk, pointer, messages, tally)
    for message in desk.slots:
        if message is not None:
            tally.claim("no COPY to its sender",
                        message.kind != COPY or message.sender != message.receiver, message)


# Request Seven: with receives alone the pool empties in time.

def receives_left(desk):
    return sum(RECEIVES_LEFT[message.kind] for message in desk.slots if message is not None)


def can_be_received(desk):
    return [slot for slot, held in enumerate(desk.slots)
            if held is not None and machine.why_no_receive(desk, slot) == 0]


def check_never_met(desk, tally):
    """SameSite in a receive, CounterFull and CounterZero are never met."""
    for slot, held in enumerate(desk.slots):
        if held is not None:
            tally.claim("only Held in a receive", machine.why_no_receive(desk, slot) in (0, 9), slot)


def drain(rng, desk, tally):
    """Receive in any order, or latest kinds first, until the pool is empty."""
    desk, left = copy.deepcopy(desk), receives_left(desk)
    lazy = rng.random() < 0.5
    while any(held is not None for held in desk.slots):
        check_never_met(desk, tally)
        ready = can_be_received(desk)
        tally.claim("some slot can be received", bool(ready))
        slot = max(ready, key=lambda s: (-desk.slots[s].kind, s)) if lazy else rng.choice(ready)
        machine.receive(desk, slot)
        left -= 1
        tally.claim("pool empties in time", left >= receives_left(desk), "left", left)
    for pointer, owner in desk.owner_of.items():
        others = [site for site in range(desk.sites) if site != owner]
        tally.claim("quiet others", all(desk.count(site, pointer) == 0 for site in others), pointer)
        holding = sum((site, pointer) in desk.holders for site in others)
        tally.claim("quiet owner", desk.count(owner, pointer) == holding, pointer)


# The paper's machine beside the desk.

def paper_message(message):
    third = (message.third,) if message.kind == INC_DEC else ()
    return (KIND_NAMES[message.kind], message.sender, message.receiver, message.pointer) + third


def paper_may(twin, call, message):
    if isinstance(call, MakeCopy):
        return twin.may_make_copy(*call)
    return twin.may_delete(*call) if isinstance(call, Delete) else twin.may_receive(message)


def paper_step(twin, call, message):
    if isinstance(call, MakeCopy):
        return twin.make_copy(*call)
    return twin.delete(*call) if isinstance(call, Delete) else twin.receive(message)


def check_against_paper(desk, twin, call, before, answer, tally):
    """An accepted call is the paper's transition; a side condition refused there is refused here."""
    if isinstance(call, Ask) or answer.number == 3 or answer.number == 8:
        return
    message = paper_message(before) if isinstance(call, Receive) else None
    allowed = paper_may(twin, call, message)
    tally.claim("side condition", allowed == (answer.number not in SIDE_CONDITIONS[type(call)]),
                call, answer)
    if answer.number == 0:
        posted = paper_step(twin, call, message)
        given = None if answer.message is None else paper_message(answer.message)
        tally.claim("paper's message", posted == given, call, answer, posted)


def check_same_state(desk, twin, tally):
    bag = Counter(paper_message(message) for message in desk.slots if message is not None)
    tally.claim("paper's bag", bag == twin.bag)
    tally.claim("paper's receive table", desk.holders == twin.rec_t)
    counts = {pair: count for pair, count in desk.counts.items() if count}
    tally.claim("paper's send table", counts == {k: v for k, v in twin.send_t.items() if v})


def check_empty_told(empty, desk, call, answer, tally):
    """An accepted make copy or delete tells the empty slots before it, which are then one fewer; nothing else does."""
    if isinstance(call, (MakeCopy, Delete)) and answer.number == 0:
        left = sum(held is None for held in desk.slots)
        tally.claim("empty slots told", answer.empty == empty == left + 1, call, answer)
    else:
        tally.claim("empty slots not told", answer.empty == 0, call, answer)


class CheckedRun:
    """A desk from an opening, the paper's machine beside it, and every claim after every call."""

    def __init__(self, sites, owners, slots, tally):
        self.desk = machine.open_desk(sites, owners, slots)
        self.twin = paper.Machine(enumerate(owners))
        self.opening = opening_digits(sites, slots, owners)
        self.calls, self.tally = [], tally

    def step(self, call):
        before = None
        if isinstance(call, Receive) and call.slot < len(self.desk.slots):
            before = self.desk.slots[call.slot]
        self.calls.append(call)
        empty = sum(held is None for held in self.desk.slots)
        answer = answer_to(self.desk, call)
        check_empty_told(empty, self.desk, call, answer, self.tally)
        check_against_paper(self.desk, self.twin, call, before, answer, self.tally)
        check_same_state(self.desk, self.twin, self.tally)
        check_desk(self.desk, self.tally)
        return answer

    def text(self):
        return b"\n".join([self.opening] + [line_of_call(call) for call in self.calls]).decode()


def run_shape(rng):
    """Small desks, where everything meets, and now and then a large one."""
    if rng.random() < 0.05:
        sites, pointers, slots, length = rng.choice([(64, 2, 40, 120), (3, 1, 1024, 150), (8, 6, 64, 200)])
    else:
        sites, pointers = rng.randint(2, 6), rng.randint(1, 2)
        slots, length = rng.choice([1, 2, 4, 8, 16, 24]), rng.choice([100, 300, 600])
    return sites, bytes(rng.randrange(sites) for _ in range(pointers)), slots, length


def random_run(seed, number, tally):
    """Run NUMBER of SEED; a claim that fails is raised with what reproduces it."""
    rng = rng_for("claims", seed, number)
    sites, owners, slots, length = run_shape(rng)
    run = CheckedRun(sites, owners, slots, tally)
    walk = Walk(rng, run.desk)
    try:
        check_desk(run.desk, tally)
        for _ in range(length):
            run.step(walk.next_call())
            if rng.random() < 0.03:
                drain(rng, run.desk, tally)
        drain(rng, run.desk, tally)
    except ClaimFails as failure:
        raise ClaimFails("seed %s, run %s: %s\nreproduced by these lines of desk:\n%s" % (
            seed, number, failure, run.text())) from None


def bound_run(tally):
    """Both bounds are met: 63 holders and 1,024 copies in flight, then 1,024 from another site."""
    desk = machine.open_desk(64, b"\0", 1024)
    for site in range(1, 64):
        machine.receive(desk, machine.make_copy(desk, 0, site, 0).value)
    other = copy.deepcopy(desk)
    for number in range(1024):
        machine.make_copy(desk, 0, 1 + number % 63, 0)
        machine.make_copy(other, 5, number % 5, 0)
    for full in (desk, other):
        check_desk(full, tally)
    tally.claim("bound 1087 is met", desk.count(0, 0) == MOST_OWNER)
    tally.claim("bound 1024 is met", other.count(5, 0) == MOST_NOT_OWNER)


def check_claims(seed, runs):
    """All runs of a seed and the two bounds; gives the tally."""
    tally = Tally()
    bound_run(tally)
    for number in range(runs):
        random_run(seed, number, tally)
    return tally
