"""The signs of a drawing and what they mean, in as many lines as the width needs."""

from .panel import LEFT
from .svg import barred, circle, cross, number, rect, text, width_of

STEP = 28


def sample(kind, dashed=False):
    """A short arrow of a kind."""
    return lambda x, y: '<g class="arrow%s"><path class="stem %s" marker-end="url(#%s-head)" d="M%s %sh34"/></g>' % (
        " open" if dashed else "", kind, kind, number(x), number(y))


SIGNS = (
    (sample("copy"), 40, "COPY"),
    (sample("dec"), 40, "DEC"),
    (sample("inc_dec"), 40, "INC_DEC"),
    (sample("copy", dashed=True), 40, "dashed: still in flight"),
    (lambda x, y: rect(x + 8, y - 10, 12, 20, "holds", 3) + '<path class="lane" d="M%s %sv20"/>' % (number(x + 14), number(y - 10)), 28, "holds it"),
    (lambda x, y: circle(x + 16, y, 4.2, "dot") + text(x + 7, y - 2, "n", "small strong", "end"), 26, "counter after the call"),
    (lambda x, y: barred(x + 10, y), 24, "came too early: Held"),
    (lambda x, y: cross(x + 8, y), 20, "refused"),
)


def legend(top, width):
    """The parts, and where they end."""
    parts, x, y = ['<g class="legend">'], LEFT, top + STEP / 2
    for sign, wide, words in SIGNS:
        needed = wide + 6 + width_of(words, 12)
        if x > LEFT and x + needed > width - LEFT:
            x, y = LEFT, y + STEP
        parts += [sign(x, y), text(x + wide + 6, y + 4, words, "mid quiet")]
        x += needed + 16
    return parts + ["</g>"], y + STEP
