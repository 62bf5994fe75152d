"""Goes on as long as one likes: inputs against a second opinion and a desk, claims, lent calls."""

import os
import pathlib
import subprocess
import tempfile
import time
from collections import Counter

import claims
import in_order_claims
import lent_text
import paper
import program
import second
import tables
from cases_store import stored_cases
from lent_tables import random_table_call
from lines import Delete, MakeCopy, Receive
from ordered_calls import random_ordered_call
from random_runs import numbered_input, rng_for

LENT_CALLS_A_ROUND = 100
MACHINE_CALLS = {"copy": MakeCopy, "receive": Receive, "delete": Delete}
DESK_SECONDS = 60


class SoakFails(Exception):
    """What differs, in words."""


def desk_output(command, text):
    """What a real desk writes; one that dies of a signal has no output."""
    done = subprocess.run([command], input=text, stdout=subprocess.PIPE, timeout=DESK_SECONDS, check=False)
    if done.returncode < 0:
        raise SoakFails("%s died of signal %d" % (command, -done.returncode))
    return done.stdout


def kept(text, expected, given):
    """Keep what is needed to look at a difference, and say where."""
    folder = pathlib.Path(tempfile.mkdtemp(prefix="soak-"))
    for name, data in (("differs.in", text), ("differs.out", expected), ("differs.given", given)):
        (folder / name).write_bytes(data)
    return folder


def compare(name, text, expected, given, who):
    if expected != given:
        raise SoakFails("%s: %s differs; see %s" % (name, who, kept(text, expected, given)))


def try_input(name, text, expected, command, counts):
    """One input through the second opinion and, if there is one, the real desk."""
    compare(name, text, expected, second.transcript(text), "the second opinion")
    counts["inputs"] += 1
    if command:
        compare(name, text, expected, desk_output(command, text), command)
        counts["inputs through the desk"] += 1


def damaged(rng, text):
    """An input with a few bytes changed, put in or taken out."""
    data = bytearray(text)
    for _ in range(rng.randint(1, 6)):
        at = rng.randrange(len(data) + 1)
        byte = rng.choice([0x0A, 0x0D, 0x30, 0x46, 0x61, rng.randrange(256)])
        data[at:at + rng.randint(0, 2)] = bytes([byte] * rng.randint(0, 2))
    return bytes(data)


def paper_twin(desk):
    """The paper's machine in the state of a desk from lent tables."""
    twin = paper.Machine(desk.owner_of)
    twin.send_t = Counter(desk.counts)
    twin.rec_t = set(desk.holders)
    twin.bag = Counter(claims.paper_message(message) for message in desk.in_flight())
    return twin


def empty_by_bytes(pool):
    """The empty slots of a pool, counted over its kind bytes."""
    return bytes(pool[::tables.SLOT_BYTES]).count(0)


def try_lent_call(call, tally):
    """A call over good lent tables, reached or not, against the paper's machine."""
    if call.name not in MACHINE_CALLS or tables.why_no_tables(call.parts):
        return
    desk = tables.decode(call.parts)
    twin, named = paper_twin(desk), MACHINE_CALLS[call.name](*call.arguments)
    before = desk.slots[named.slot] if call.name == "receive" and named.slot < len(desk.slots) else None
    answer, after = lent_text.PLAIN_CALLS[call.name](call.parts, *call.arguments)
    claims.check_against_paper(desk, twin, named, before, answer, tally)
    claims.check_same_state(tables.decode(after), twin, tally)
    claims.check_empty_told(empty_by_bytes(call.parts.pool), tables.decode(after), named, answer, tally)


def one_round(seed, number, command, counts, tally):
    """Everything once, from a seed and the number of the round."""
    text, expected = numbered_input(seed, number)
    try_input("input %d" % number, text, expected, command, counts)
    rng = rng_for("soak", seed, number)
    text = damaged(rng, text)
    try_input("damaged input %d" % number, text, program.run(text), command, counts)
    claims.random_run(seed, number, tally)
    counts["claim runs"] += 1
    in_order_claims.random_run(seed, number, tally)
    counts["claim runs in order"] += 1
    for _ in range(LENT_CALLS_A_ROUND):
        try_lent_call(random_table_call(rng), tally)
        in_order_claims.check_ordered_call(random_ordered_call(rng), tally)
        counts["lent calls"] += 1
        counts["calls in order"] += 1


def soak(seconds, seed):
    """Rounds until the time is over; gives how much was done."""
    command, counts, tally = os.environ.get("DESK"), Counter(), claims.Tally()
    for name, text, expected in stored_cases():
        try_input("case " + name, text, expected, command, counts)
    end, number = time.monotonic() + seconds, 0
    while time.monotonic() < end:
        try:
            one_round(seed, number, command, counts, tally)
        except (SoakFails, claims.ClaimFails) as failure:
            raise SoakFails("seed %s, round %d: %s" % (seed, number, failure)) from None
        number += 1
    done = ", ".join("%d %s" % (count, what) for what, count in counts.items())
    return "%d rounds, seed %s: %s; %s" % (number, seed, done, tally.report())
