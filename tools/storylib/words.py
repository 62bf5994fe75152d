"""The words of a row: the call, its answer, what was posted, who holds, what is in flight."""

from .books import whole
from .forms import ASK, DELETE, KINDS, MAKE_COPY, RECEIVE, Opening, quoted
from .refusals import name_of

# A call in words, and as the subject of "refused"; a new call is one more row in each.
CALLS = {
    MAKE_COPY: lambda call: "site %d copies pointer %d to site %d" % (call.site, call.pointer, call.to),
    RECEIVE: lambda call: "slot %d is received" % call.slot,
    DELETE: lambda call: "site %d deletes pointer %d" % (call.site, call.pointer),
    ASK: lambda call: "site %d: may I drop pointer %d?" % (call.site, call.pointer),
}
SUBJECTS = {
    MAKE_COPY: lambda call: "copy %d→%d of pointer %d" % (call.site, call.to, call.pointer),
    RECEIVE: lambda call: "receive of slot %d" % call.slot,
    DELETE: lambda call: "delete of pointer %d at site %d" % (call.pointer, call.site),
    ASK: lambda call: "ask of site %d for pointer %d" % (call.site, call.pointer),
}


def opening_words(opening):
    return "opens: %s, %s, %s" % (
        whole(opening.sites, "site"), whole(len(opening.owners), "pointer"), whole(opening.slots, "slot"))


def call_words(row):
    """The call: a receive by what arrives, a line that is no call as it stands."""
    message = row.handled or row.refused
    if message:
        return "slot %d: %s arrives" % (row.call.slot, message.words())
    if row.call is None:
        return "line %s" % quoted(row.line)
    return opening_words(row.call) if isinstance(row.call, Opening) else CALLS[row.call.verb](row.call)


def subject_words(row):
    """What was refused."""
    if row.refused:
        return row.refused.words()
    if row.number == 1:
        return "opening"
    return SUBJECTS[row.call.verb](row.call) if row.call else "line"


def says(row):
    """What an accepted ask says: no or YES; None for all else."""
    if row.answer.number or isinstance(row.call, Opening) or row.call.verb != ASK:
        return None
    return "YES" if row.answer.value else "no"


def answer_words(row):
    if row.answer.number:
        return "refused, %s" % name_of(row.answer.number)
    return says(row) or "accepted"


def posted_words(row):
    return "posts %s into slot %d" % (row.posted.words(), row.posted.slot) if row.posted else ""


def why_words(row):
    """line 7: DEC 2→0 refused, 9 Held: waits for INC_DEC 2→0 (third 1) in slot 0, posted at line 5"""
    return "line %d: %s %s: %s" % (row.number, subject_words(row), answer_words(row), row.cause)


def sites_words(sites):
    """0–3 7 9: sites in order, three and more in a row as a range."""
    parts, at = [], 0
    while at < len(sites):
        end = at
        while end + 1 < len(sites) and sites[end + 1] == sites[end] + 1:
            end += 1
        if end - at >= 2:
            parts.append("%d–%d" % (sites[at], sites[end]))
        else:
            parts.extend(str(site) for site in sites[at:end + 1])
        at = end + 1
    return " ".join(parts) or "–"


def kinds_words(kinds):
    """12 messages: 5 COPY, 4 DEC, 3 INC_DEC."""
    total = "%s" % whole(sum(kinds), "message")
    return "%s: %s" % (total, ", ".join("%d %s" % (n, name) for n, name in zip(kinds, KINDS.values()) if n))


def flight_words(row):
    """The messages in flight for the row's pointer; many are folded to a count."""
    if row.flight is None:
        return kinds_words(row.kinds)
    return ", ".join(message.words() for message in row.flight) or "–"


def others_words(row):
    """Counters of other sites than the owner that are not 0, as site:count."""
    return " ".join("%d:%d" % pair for pair in row.others) or "–"


def row_words(row):
    """A whole row as one sentence."""
    said = why_words(row) if row.answer.number else "line %d: %s, %s" % (row.number, call_words(row), answer_words(row))
    posted = posted_words(row)
    said += ", " + posted if posted else ""
    if row.pointer is None:
        return said
    return "%s. Pointer %d: held by %s; its owner, site %d, counts %d; in flight: %s" % (
        said, row.pointer, sites_words(row.holders), row.owner, row.owner_count, flight_words(row))
