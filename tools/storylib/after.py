"""The desk after a line: holders, counters, slots, sheet and shares of a pointer, and why ask says no."""

from .books import whole
from .forms import COPY, DEC, INC_DEC, KINDS
from .words import sites_words

# The column of the sheet that a message is entered in (document 02, Two): the site whose counter it acts on.
COLUMN = {COPY: lambda m: m.sender, DEC: lambda m: m.receiver, INC_DEC: lambda m: m.third}


def part_of_share(message, owner):
    """The site in whose share a message counts, and how much: (site, step), or None where it counts in none."""
    if message.kind == COPY:
        return (message.receiver, +1) if message.sender == owner else None
    if message.receiver != owner:
        return None
    return message.sender, +1 if message.kind == DEC else -1


def share_parts(kept):
    """For each site but the owner: the parts of its share, as (step, words)."""
    parts = {site: [(+1, "site %d holds it" % site)] for site in sorted(kept.holders) if site != kept.owner}
    for message in in_order(kept):
        part = part_of_share(message, kept.owner)
        if part and part[0] != kept.owner:
            parts.setdefault(part[0], []).append((part[1], message.where()))
    return dict(sorted(parts.items()))


def in_order(kept):
    return [kept.flight[slot] for slot in sorted(kept.flight)]


def sheet_words(kept):
    """Each kind: the columns that are not 0."""
    for kind, name in KINDS.items():
        columns = {}
        for message in in_order(kept):
            if message.kind == kind:
                column = COLUMN[kind](message)
                columns[column] = columns.get(column, 0) + 1
        yield name, ", ".join("site %d: %d" % pair for pair in sorted(columns.items())) or "all 0"


def counter_words(kept):
    """The owner's counter, then the others that are not 0."""
    others = sorted((site, n) for site, n in kept.counts.items() if n and site != kept.owner)
    said = ["site %d (owner): %d" % (kept.owner, kept.count(kept.owner))] + ["site %d: %d" % pair for pair in others]
    return ", ".join(said) + ("" if others else "; all others 0")


def ask_lines(kept, shares):
    """Why ask says no: all that makes up the owner's counter."""
    count = kept.count(kept.owner)
    if is_quiet(kept):
        yield "ask says YES: the owner's counter is 0; no other site holds it, and nothing is in flight"
        return
    yield "ask says %s: the owner's counter is %d, which is made up of" % ("no" if count else "YES", count)
    for step, words in (part for parts in shares.values() for part in parts):
        yield "  %+d  %s" % (step, words)
    total = sum(step for parts in shares.values() for step, _ in parts)
    if total != count:
        yield "  but these add up to %d: no desk that was opened gives such answers" % total


def pointer_lines(pointer, kept):
    shares = share_parts(kept)
    sums = {site: sum(step for step, _ in parts) for site, parts in shares.items()}
    yield "pointer %d, owner site %d" % (pointer, kept.owner)
    yield "  held by   %s" % sites_words(sorted(kept.holders))
    yield "  counters  %s" % counter_words(kept)
    for at, message in enumerate(in_order(kept)):
        yield "  %-8s  %d: %s, posted at line %d" % ("" if at else "slots", message.slot, message.words(), message.posted)
    if not kept.flight:
        yield "  slots     no message"
    for at, (name, said) in enumerate(sheet_words(kept)):
        yield "  %-8s  %-7s  %s" % ("" if at else "sheet", name, said)
    yield "  shares    %s" % (", ".join("site %d: %d" % pair for pair in sums.items()) or "all 0")
    for line in ask_lines(kept, shares):
        yield "  " + line


def is_quiet(kept):
    """Only the owner holds it, nothing is counted and nothing in flight."""
    return kept.holders == {kept.owner} and not kept.flight and not any(kept.counts.values())


def state_lines(run, pointer):
    """The whole state, pointer by pointer; those of which there is nothing to say are counted."""
    books = run.books
    yield "slots: %d of %s empty" % (books.slot_count - len(books.slots), format(books.slot_count, ","))
    shown = [pointer] if pointer is not None else [p for p, kept in enumerate(books.pointers) if not is_quiet(kept)]
    for each in shown:
        yield ""
        yield from pointer_lines(each, books.pointers[each])
    if pointer is None and len(shown) < len(books.pointers):
        rest = len(books.pointers) - len(shown)
        yield ""
        yield "%s: held by the owner alone, all counters 0, nothing in flight; ask says YES" % whole(rest, "other pointer" if shown else "pointer")
