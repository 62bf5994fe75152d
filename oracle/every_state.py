"""Every state that a small desk can reach, slots taken as a bag, with every claim checked there."""

import desk as machine
from claims import (
    ClaimFails, can_be_received, check_desk, check_empty_told, check_never_met, receives_left)
from lines import Delete, MakeCopy, Receive, line_of_call
from program import answer_to
from random_runs import opening_digits

# S, owners and slot count: each is walked to the end.
SMALL_DESKS = ((2, b"\0", 5), (2, b"\1\1", 3), (2, b"\0\1", 3), (3, b"\0", 4), (3, b"\2", 3), (4, b"\1", 2))


def bag_state(desk):
    """What is left of a desk when slot numbers are forgotten."""
    return (frozenset(pair for pair in desk.counts.items() if pair[1]), frozenset(desk.holders),
            tuple(sorted(desk.in_flight())))


def twin_of(desk):
    twin = machine.Desk(desk.sites, desk.owner_of.values(), 0)
    twin.counts, twin.holders, twin.slots = dict(desk.counts), set(desk.holders), list(desk.slots)
    return twin


def all_calls(desk):
    """Every call that names what is there and can change something."""
    sites = range(desk.sites)
    for pointer in desk.owner_of:
        for site in sites:
            yield Delete(site, pointer)
            for other in sites:
                yield MakeCopy(site, other, pointer)
    for slot in range(len(desk.slots)):
        yield Receive(slot)


def check_state(desk, tally):
    """The claims, and that a pool that is not empty can go on emptying."""
    check_desk(desk, tally)
    check_never_met(desk, tally)
    tally.claim("some slot can be received", not desk.in_flight() or can_be_received(desk))


def lines_to(path):
    """The calls of a path that is linked from its end."""
    texts = []
    while path:
        path, call = path
        texts.append(line_of_call(call).decode())
    return texts[::-1]


def steps_from(desk, tally):
    """Each call with the desk after it; each receive must bring the end nearer."""
    for call in all_calls(desk):
        after = twin_of(desk)
        answer = answer_to(after, call)
        check_empty_told(desk.slots.count(None), after, call, answer, tally)
        if isinstance(call, Receive) and answer.number == 0:
            tally.claim("pool empties in time", receives_left(after) < receives_left(desk), call)
        yield call, after


def walk_every_state(sites, owners, slots, tally):
    """The number of states; a claim that fails is raised with the lines that lead there."""
    first = machine.open_desk(sites, owners, slots)
    known, waiting, path = {bag_state(first)}, [(first, None)], None
    try:
        while waiting:
            desk, path = waiting.pop()
            check_state(desk, tally)
            for call, after in steps_from(desk, tally):
                if bag_state(after) not in known:
                    known.add(bag_state(after))
                    waiting.append((after, (path, call)))
    except ClaimFails as failure:
        lines = [opening_digits(sites, slots, owners).decode()] + lines_to(path)
        raise ClaimFails("%s\nin the state after these lines of desk:\n%s" % (
            failure, "\n".join(lines))) from None
    return len(known)


def walk_small_desks(tally):
    """Every state of every small desk; the number of states."""
    return sum(walk_every_state(sites, owners, slots, tally) for sites, owners, slots in SMALL_DESKS)
