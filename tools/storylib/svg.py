"""Pieces of SVG as text, and how wide a text can be."""

from collections import defaultdict
from functools import lru_cache

# Widths of the characters from the space to the tilde in hundredths of the font size: DejaVu Sans, which like Verdana is among the
# widest that a reader is likely to have; and of what else the drawing writes.
ASCII = (32, 41, 46, 84, 64, 96, 78, 28, 40, 40, 50, 84, 32, 37, 32, 34, 64, 64, 64, 64, 64, 64, 64, 64, 64, 64, 34, 34, 84, 84, 84, 54,
         100, 69, 69, 70, 78, 64, 58, 78, 76, 30, 30, 66, 56, 87, 75, 79, 61, 79, 70, 64, 62, 74, 69, 99, 69, 62, 69, 40, 34, 40, 84, 50,
         50, 62, 64, 55, 64, 62, 36, 64, 64, 28, 28, 58, 28, 98, 64, 62, 64, 64, 42, 53, 40, 64, 60, 82, 60, 60, 53, 64, 34, 64, 84)
WIDTHS = defaultdict(lambda: 110, {chr(32 + at): width for at, width in enumerate(ASCII)})
WIDTHS.update({"→": 84, "–": 50, "…": 100})
BOLD, ROOM = 1.2, 1.03      # bold characters; a little more than needed


@lru_cache(maxsize=None)
def width_of(words, size, bold=False):
    """At least as wide as the words will be."""
    return size * ROOM * (BOLD if bold else 1) * sum(map(WIDTHS.__getitem__, words)) / 100


def escaped(text):
    return text.replace("&", "&amp;").replace("<", "&lt;").replace(">", "&gt;").replace('"', "&quot;")


def number(value):
    """At most one place after the point."""
    return ("%.1f" % value).rstrip("0").rstrip(".")


def text(x, y, words, kind="", anchor=""):
    return '<text x="%s" y="%s"%s%s>%s</text>' % (
        number(x), number(y), ' class="%s"' % kind if kind else "", ' text-anchor="%s"' % anchor if anchor else "", escaped(words))


def line(x1, y1, x2, y2, kind):
    return '<path class="%s" d="M%s %sL%s %s"/>' % (kind, number(x1), number(y1), number(x2), number(y2))


def rect(x, y, width, height, kind, radius=0):
    return '<rect class="%s" x="%s" y="%s" width="%s" height="%s"%s/>' % (
        kind, number(x), number(y), number(width), number(height), ' rx="%s"' % number(radius) if radius else "")


def circle(x, y, radius, kind):
    return '<circle class="%s" cx="%s" cy="%s" r="%s"/>' % (kind, number(x), number(y), number(radius))


def titled(title, parts, kind, data=()):
    """A group with a title, which a browser shows where the mouse rests and a screen reader reads."""
    extra = "".join(' data-%s="%s"' % (name, escaped(str(value))) for name, value in data)
    return '<g class="%s"%s><title>%s</title>%s</g>' % (kind, extra, escaped(title), "".join(parts))


def cross(x, y):
    """The sign for a refusal."""
    return '<path class="cross" d="M%s %sl10 10m0 -10l-10 10"/>' % (number(x - 5), number(y - 5))


def barred(x, y):
    """The sign for Held: a ring with a bar."""
    return circle(x, y, 8, "ring") + '<path class="bar" d="M%s %sl11.2 -11.2"/>' % (number(x - 5.6), number(y + 5.6))
