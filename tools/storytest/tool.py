"""The tool as a person runs it, and what it tells and draws as data."""

import io
import os
import re
import subprocess
import sys
import xml.etree.ElementTree as XML
from contextlib import redirect_stderr, redirect_stdout
from functools import lru_cache

ROOT = os.path.dirname(os.path.dirname(os.path.dirname(os.path.abspath(__file__))))
sys.path.insert(0, os.path.join(ROOT, "tools"))

from storylib import command, svg  # noqa: E402

STORY = os.path.join(ROOT, "tools", "story")
SVG = "{http://www.w3.org/2000/svg}"
TITLED = ("row", "arrow", "lifeline", "sign")
SIZES = {"big": 17, "mid": 12, "small": 11}


def process(*words, **extra):
    """The tool as a program: status, standard output, standard error."""
    done = subprocess.run([sys.executable, STORY, *words], stdout=subprocess.PIPE, stderr=subprocess.PIPE, env={**os.environ, **extra})
    return done.returncode, done.stdout.decode(), done.stderr.decode()


def within(*words):
    """The same within this process, which is faster."""
    out, err = (io.TextIOWrapper(io.BytesIO(), encoding="utf-8") for _ in range(2))
    with redirect_stdout(out), redirect_stderr(err):
        status = command.main(list(words))
    out.flush(), err.flush()
    return status, out.buffer.getvalue().decode(), err.buffer.getvalue().decode()


def rows_of(told):
    """The rows of a telling: a dictionary from head to words for each, with `why` where a cause stands under it."""
    lines = told.split("\n")[1:]
    heads = re.findall(r"\S+(?: \S+)*", lines[0])
    starts = [lines[0].index(head) for head in heads]
    ends = starts[1:] + [None]
    rows = []
    for line in filter(None, lines[1:]):
        if line.startswith("      line "):
            rows[-1]["why"] = line.strip()
        else:
            rows.append({head: line[start:end].strip() for head, start, end in zip(heads, starts, ends)})
    return rows


def sites_of(words):
    """0–3 7 9 as a list."""
    sites = []
    for part in words.split():
        first, _, last = part.partition("–")
        sites += range(int(first), int(last or first) + 1)
    return sites


def pairs_of(words):
    """1:1 2:3 as a dictionary."""
    return {} if words == "–" else {int(site): int(count) for site, count in (pair.split(":") for pair in words.split())}


@lru_cache(maxsize=2)
def parsed(picture):
    """The drawing, which is well-formed XML."""
    return XML.fromstring(picture)


def width_of(text):
    """A text's width by the metrics of a wide font."""
    kinds = text.get("class", "").split()
    size = next((SIZES[kind] for kind in kinds if kind in SIZES), 13)
    return svg.width_of("".join(text.itertext()), size, bold="big" in kinds or "strong" in kinds)


def outside(picture):
    """Texts that reach over an edge of the drawing."""
    root = parsed(picture)
    wide, high = float(root.get("width")), float(root.get("height"))
    for text in root.iter(SVG + "text"):
        x, y, width = float(text.get("x")), float(text.get("y")), width_of(text)
        begin = x - {"middle": width / 2, "end": width}.get(text.get("text-anchor"), 0)
        if begin < 0 or begin + width > wide or y < 8 or y > high - 2:
            yield "".join(text.itertext())


def untitled(picture):
    """Rows, arrows, lifelines and signs without a title, but for the samples of the legend."""
    for panel in parsed(picture).iter(SVG + "g"):
        if panel.get("class") == "panel":
            for group in panel.iter(SVG + "g"):
                if group.get("class").split()[0] in TITLED and not group.findtext(SVG + "title"):
                    yield "a %s without a title" % group.get("class")


def nearest(places, value):
    """The name of the place that is less than 7 away, or None."""
    return next((name for name, place in places.items() if abs(place - value) < 7), None)


class Panel:
    """A panel of the drawing, read by where its parts stand."""

    def __init__(self, group):
        self.group, self.pointer = group, group.get("data-pointer")
        self.rows = {int(g.get("data-line")): float(g.get("data-y")) for g in self.groups("row")}
        self.lanes = {int(g.get("data-site")): float(g.get("data-x")) for g in self.groups("lifeline")}

    def groups(self, kind):
        return [g for g in self.group.iter(SVG + "g") if g.get("class").split()[0] == kind]

    def line_at(self, y):
        """The line whose row is there; None under the last row."""
        return None if y > max(self.rows.values()) + 7 else nearest(self.rows, y)

    def arrows(self):
        """Kind, site of the beginning and of the end, line of the beginning and of the end; a dashed arrow ends under all rows."""
        for arrow in self.groups("arrow"):
            stem = arrow.findall(SVG + "path")[-1]
            x1, y1, x2, y2 = [float(n) for n in re.findall(r"[\d.]+", stem.get("d"))]
            end = self.line_at(y2)
            if ("open" in arrow.get("class").split()) != (end is None):
                end = "dashed wrongly"
            yield stem.get("class").split()[-1].upper(), nearest(self.lanes, x1), nearest(self.lanes, x2), self.line_at(y1), end

    def held(self):
        """Site, first line and last line of each shade."""
        for lane in self.groups("lifeline"):
            for shade in lane.iter(SVG + "rect"):
                y = float(shade.get("y"))
                yield int(lane.get("data-site")), self.line_at(y), self.line_at(y + float(shade.get("height")))

    def counters(self):
        """Line, site and count of each counter beside a lifeline."""
        for text in self.group.iter(SVG + "text"):
            if text.get("class", "").split()[:1] == ["counter"]:
                x = float(text.get("x")) + (9 if text.get("text-anchor") == "end" else -9)
                yield self.line_at(float(text.get("y")) + 5), nearest(self.lanes, x), int(text.text)


def panels(picture):
    return [Panel(g) for g in parsed(picture).iter(SVG + "g") if g.get("class") == "panel"]


def all_of(picture, what):
    """The arrows, shades or counters of all panels, with their pointer."""
    return sorted(((int(panel.pointer), *part) for panel in panels(picture) if panel.pointer for part in getattr(panel, what)()), key=str)


def arrows_of(picture):
    return all_of(picture, "arrows")


def rows_drawn(picture):
    return sorted(line for panel in panels(picture) for line in panel.rows)


def signs_of(picture):
    """How many signs stand in the panels: Held, other refusals, no, YES."""
    found = [part.get("class") for panel in panels(picture) for part in panel.group.iter() if part.get("class") in ("ring", "cross", "no", "yes")]
    return [found.count(name) for name in ("ring", "cross", "no", "yes")]
