"""A run as a table of words, a row a line; the cause of a refusal stands under its row."""

import re

from .words import answer_words, call_words, flight_words, others_words, posted_words, sites_words, why_words

HEADS = ("line", "call", "answer", "posted", "pointer", "held by", "owner counts", "others count", "in flight")
POINTER = HEADS.index("pointer")
RIGHT = {"line", "owner counts"}
# A terminal's colours: blue, yellow, purple for the kinds as in the drawing; red for refused, green for a yes.
PAINT = {"COPY": "34", "DEC": "33", "INC_DEC": "35", "refused": "31", "YES": "1;32", "no": "1"}
KINDS = re.compile(r"\b(?:INC_DEC|DEC|COPY|refused)\b")
ANSWER = re.compile(r"^(?:refused.*\S|YES|no)")


def painted(words, pattern=KINDS):
    return pattern.sub(lambda found: "\033[%sm%s\033[0m" % (PAINT[found[0].split(",")[0]], found[0]), words)


def cells(row):
    """The words of a row, column by column; a line that concerns no pointer has none in the last ones."""
    first = (str(row.number), call_words(row), answer_words(row), posted_words(row) or "–")
    if row.pointer is None:
        return first + ("–",) * (len(HEADS) - len(first))
    return first + (str(row.pointer), sites_words(row.holders), str(row.owner_count), others_words(row), flight_words(row))


def aligned(texts, widths, heads, colours=False):
    padded = [text.rjust(width) if head in RIGHT else text.ljust(width) for text, width, head in zip(texts, widths, heads)]
    padded[-1] = padded[-1].rstrip()
    if colours:
        padded = [painted(text, ANSWER if head == "answer" else KINDS) for text, head in zip(padded, heads)]
    return "  ".join(padded)


def told(rows, colours, one_pointer):
    """The table, line by line; where all rows are of one pointer its column is left out."""
    kept = [at for at in range(len(HEADS)) if not (one_pointer and at == POINTER)]
    heads = [HEADS[at] for at in kept]
    table = [[texts[at] for at in kept] for texts in map(cells, rows)]
    widths = [max(map(len, column)) for column in zip(heads, *table)]
    yield aligned(heads, widths, heads)
    for row, texts in zip(rows, table):
        yield aligned(texts, widths, heads, colours)
        if row.answer.number:
            why = "      " + why_words(row)
            yield painted(why) if colours else why
