"""Random runs: what is told and drawn is what the independent program says."""

import os
import random
import re
import tempfile

import second
import tool

NAMES = second.refusal_names()


def flight_words(flight):
    """The words for messages in flight, from the independent program's; more than four are counted."""
    if len(flight) > 4:
        kinds = [(sum(m[0] == kind for m in flight), kind) for kind in ("COPY", "DEC", "INC_DEC")]
        return "%d messages: %s" % (len(flight), ", ".join("%d %s" % pair for pair in kinds if pair[0]))
    return [message_words(message) for message in flight]


def message_words(message):
    kind, sender, receiver, third = message
    return "%s %d→%d%s" % (kind, sender, receiver, " (third %d)" % third if kind == "INC_DEC" else "")


def same_row(row, after):
    """Whether a row of words says what the line left."""
    number, value, message = after.answer.number, after.answer.value, after.answer.message
    name = "refused, %d %s" % (number, NAMES[number]) if number else row["answer"]
    posted = "–" if message is None else "posts %s into slot %d" % (
        message_words((second.KINDS[message.kind], message.sender, message.receiver, message.third)), value)
    said = [row["line"] == str(after.line), row["answer"] == name, row["posted"] == posted, ("why" in row) == bool(number)]
    if row["call"].endswith("?") and not number:
        said.append(row["answer"] == ("YES" if value else "no"))
    if after.pointer is None:
        return all(said) and row["held by"] == "–"
    flight = flight_words(after.flight)
    return all(said) and (tool.sites_of(row["held by"]), row["owner counts"], tool.pairs_of(row["others count"])) == (
        after.holders, str(after.owner_count), after.others) and (
        row["in flight"] == flight if isinstance(flight, str) else sorted(row["in flight"].split(", ")) == sorted(flight or ["–"]))


def told_wrong(path, run):
    """What is wrong in the words of a run, or None."""
    status, told, err = tool.within(path)
    rows = tool.rows_of(told)
    if status or err or len(rows) != len(run.after):
        return "status %s, %d rows, %s" % (status, len(rows), err)
    for row, after in zip(rows, run.after):
        if not same_row(row, after) or "no cause" in row.get("why", ""):
            return "line %d: %s, not %s" % (after.line, row, after)
    return None


def pointer_wrong(path, out, run, pointer):
    """--pointer keeps the opening and what concerns the pointer, and no more."""
    status, told, _ = tool.within(path, out, "--pointer", str(pointer))
    kept = [int(row["line"]) for row in tool.rows_of(told)]
    wanted = [after.line for after in run.after if after.line == 1 or after.pointer == pointer]
    return None if status == 0 and kept == wanted else "--pointer %d keeps %s, not %s" % (pointer, kept, wanted)


def signs_wanted(run):
    """Held, other refusals, no, YES."""
    numbers = [after.answer.number for after in run.after]
    said = [after.answer.value for after in run.after if after.asked and not after.answer.number]
    return [numbers.count(9), sum(number not in (0, 9) for number in numbers), said.count(0), said.count(1)]


def drawn_wrong(path, out, run):
    """One arrow for each message, from its post to its receive; shades, counters, signs; a row for each line; texts within the edges."""
    status, picture, err = tool.within(path, out, "--svg", "-")
    if status or err:
        return "status %s: %s" % (status, err)
    messages = [(m.pointer, m.kind, m.sender, m.receiver, m.posted, m.received) for m in run.all_messages()]
    drawn = {int(panel.pointer) for panel in tool.panels(picture) if panel.pointer}
    held = [part for part in run.all_held() if part[0] in drawn]
    for what, wanted in (("arrows", messages), ("held", held), ("counters", run.counted)):
        found = tool.all_of(picture, what)
        if found != sorted(wanted, key=str):
            return "%s: %s" % (what, sorted(set(found) ^ set(wanted), key=str)[:4] or "one too many")
    if tool.signs_of(picture) != signs_wanted(run):
        return "signs: %s, not %s" % (tool.signs_of(picture), signs_wanted(run))
    if sorted(set(tool.rows_drawn(picture)) | {1}) != list(range(1, len(run.after) + 1)):
        return "not every line has its row"
    return "; ".join(list(tool.outside(picture)) + list(tool.untitled(picture))) or None


def at_wrong(path, out, text, line, pointer):
    """--at: counters, sheet and shares of a pointer, and the sum that makes up the owner's counter."""
    run = second.SecondRun(text, line)
    status, told, _ = tool.within(path, out, "--at", str(line), "--pointer", str(pointer))
    owner = run.desk.owner_of[pointer]
    shares = re.search(r"^  shares    (.*)$", told, re.M)[1]
    said = {int(s): int(n) for s, n in re.findall(r"site (\d+): (-?\d+)", shares) if int(n)}
    kinds = re.findall(r"^.{12}(COPY|DEC|INC_DEC) +(.*)$", told.split("  shares")[0], re.M)
    sheet = {kind: {int(s): int(n) for s, n in re.findall(r"site (\d+): (\d+)", row)} for kind, row in kinds}
    counted = int(re.search(r"site %d \(owner\): (\d+)" % owner, told)[1])
    parts = sum(int(step) for step in re.findall(r"^    ([+-]\d+)  ", told, re.M))
    slots = len(re.findall(r", posted at line \d+$", told.split("  sheet")[0], re.M))
    wanted = (run.shares(pointer), run.sheet(pointer), run.desk.count(owner, pointer), sum(m.pointer == pointer for m in run.desk.in_flight()))
    found = said, sheet, counted, slots
    if status == 0 and found == wanted and parts == counted:
        return None
    return "--at %d --pointer %d: %s, not %s; %d" % (line, pointer, found, wanted, parts)


def random_runs(seed, count):
    """COUNT runs of SEED, told from desk's own answers, the rest from the independent program's; ends with what is wrong first."""
    rng = random.Random(seed)
    with tempfile.TemporaryDirectory() as room:
        path, out = os.path.join(room, "run.in"), os.path.join(room, "run.out")
        for number in range(int(count)):
            text = second.random_input(seed, number)
            run = second.SecondRun(text)
            for name, content in ((path, text), (out, run.output())):
                with open(name, "wb") as file:
                    file.write(content)
            line, pointer = rng.randint(1, len(run.after)), rng.choice([a.pointer for a in run.after if a.pointer is not None] or [0])
            wrong = (told_wrong(path, run) or pointer_wrong(path, out, run, pointer) or drawn_wrong(path, out, run)
                     or at_wrong(path, out, text, line, pointer))
            if wrong:
                raise AssertionError("seed %s, run %d: %s" % (seed, number, wrong))


def damaged(rng, text):
    """A text with a few bytes changed, lost or doubled."""
    for _ in range(rng.randint(1, 3)):
        at = rng.randrange(len(text))
        new = rng.choice([b"", text[at:at + 1] * 2, rng.choice(b"0123456789ABCDEF01230\n~").to_bytes(1, "big"), bytes([rng.randrange(256)])])
        text = text[:at] + new + text[at + 1:]
    return text


def damaged_runs(seed, count):
    """Whatever IN and OUT hold, the tool ends with 0, 1 or 2, and with words for the last two."""
    rng = random.Random(seed)
    with tempfile.TemporaryDirectory() as room:
        path, out = os.path.join(room, "run.in"), os.path.join(room, "run.out")
        ends = {0: 0, 1: 0, 2: 0}
        for number in range(int(count)):
            text = second.random_input(seed, number)
            answers = second.SecondRun(text).output()
            for name, content in ((path, text if number % 2 else damaged(rng, text)), (out, damaged(rng, answers) if number % 2 else answers)):
                with open(name, "wb") as file:
                    file.write(content)
            for words in ((), ("--svg", "-"), ("--at", "9")):
                status, told, err = tool.within(path, out, *words)
                if (status == 0) == bool(err) or err.count("\n") > 1 or (status == 0) > bool(told):
                    raise AssertionError("seed %s, run %d: status %s, %s" % (seed, number, status, err))
                ends[status] += 1
        if not all(ends.values()):
            raise AssertionError("not every end was met: %s" % ends)
