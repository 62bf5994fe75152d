"""A run as a space-time drawing in SVG: time runs down, a lifeline a site, an arrow a message, a row a line."""

from .arrows import Room, arrows
from .legend import legend
from .panel import LEFT, ROW, Panel
from .style import heads, style
from .svg import barred, circle, cross, escaped, line, number, rect, text, titled, width_of
from .words import kinds_words, row_words, says

HELD = 9
GAP = 36
NAMED = 62          # lifelines this far apart have names, closer ones numbers


def head(panel):
    """The title, the names of the sites and of the columns."""
    y = panel.top + 26
    yield text(LEFT, y, panel.title, "big")
    if panel.idle:
        yield text(LEFT, y + 20, panel.idle_words(), "small quiet")
    y = panel.first - 32
    yield from names(panel, y)
    if panel.kept:
        yield text(panel.lanes[panel.kept.owner], y + 14, "owner", "small quiet", "middle")
    yield text(panel.text_x, y, "call, and what became of it", "quiet")
    if panel.kept:
        yield text(panel.count_x, y - 6, "owner", "small quiet", "middle") + text(panel.count_x, y + 8, "counts", "small quiet", "middle")
        yield text(panel.flight_x, y, "in flight", "quiet")


def names(panel, y, kind="strong"):
    """The names of the sites over their lifelines; where these stand close, numbers."""
    close = panel.gap < NAMED
    if close and panel.lanes:
        yield text(min(panel.lanes.values()) - 16, y, "site", "small quiet", "end")
    for site, x in panel.lanes.items():
        yield text(x, y, str(site) if close else "site %d" % site, kind, "middle")


def strips(panel, room):
    """The names again, every so many rows, on plates over the lifelines."""
    wide = 20 if panel.gap < NAMED else 44
    for y in panel.strips:
        yield line(LEFT, y, panel.width - LEFT, y, "strip")
        for x in panel.lanes.values():
            box = (x - wide / 2, y - 9, x + wide / 2, y + 9)
            yield rect(box[0], box[1], wide, 18, "page", 4)
            room.take(box)
        yield from names(panel, y + 4, "small quiet")


def rows(panel):
    """The words of each row; its title has all of them."""
    for at, row in enumerate(panel.rows):
        y = panel.y[row.number]
        main, sub, kind = panel.words[row.number]
        parts = [rect(LEFT / 2, y - ROW / 2, panel.width - LEFT, ROW, "band" if at % 2 == 0 else "page", 4),
                 text(LEFT + 28, y + 4, str(row.number), "quiet", "end"),
                 text(panel.text_x, y + (-1 if sub else 4), main, "bad" if row.answer.number else "")]
        if sub:
            parts.append(text(panel.text_x, y + 12, sub, "small " + kind))
        if row.pointer is not None:
            counted = "strong" if row.owner_count else "strong good"
            parts.append(text(panel.count_x, y + 4, str(row.owner_count), counted, "middle"))
            parts.append(text(panel.flight_x, y + 4, panel.flights[row.number], "mid quiet"))
        parts.append(pill(panel, row, y))
        yield titled(row_words(row), parts, "row", (("line", row.number), ("y", number(y))))


def pill(panel, row, y):
    """What ask says."""
    said = says(row)
    if not said:
        return ""
    wide = 46 if said == "YES" else 38
    return rect(panel.pill_x, y - 11, wide, 22, "yes" if said == "YES" else "no", 11) + text(
        panel.pill_x + wide / 2, y + 4, said, "strong yes-text" if said == "YES" else "strong", "middle")


def lifelines(panel):
    """A line for each site, shaded where it holds."""
    begun = {panel.kept.owner: panel.first}
    shades = []
    for row in panel.rows:
        if row.gained is not None:
            begun.setdefault(row.gained, panel.y[row.number])
        if row.lost in begun:
            shades.append((row.lost, begun.pop(row.lost), panel.y[row.number]))
    shades += [(site, y, panel.end) for site, y in begun.items()]
    for site, x in panel.lanes.items():
        held = [rect(x - 6, y, 12, end - y, "holds", 3) for s, y, end in shades if s == site]
        yield titled("site %d%s" % (site, ", the owner" if site == panel.kept.owner else ""),
                     held + [line(x, panel.first - 14, x, panel.end + 8, "lane")], "lifeline", (("site", site), ("x", number(x))))


def dots(panel, room):
    """What happens where: a dot, or the sign of a refusal; and the counter that changed."""
    for row in panel.rows:
        y, x = panel.y[row.number], panel.lanes.get(panel.site_of(row))
        if row.answer.number:
            sign = barred if row.answer.number == HELD else cross
            x = panel.text_x - 20 if x is None else x
            yield titled(row_words(row), [sign(x, y)], "sign")
        elif x is not None:
            yield circle(x, y, 4.2, "dot")
        if x is not None:
            room.take((x - 9, y - 8, x + 9, y + 8))
        if row.changed:
            yield counter(panel, row, y, room)


def counter(panel, row, y, room):
    """A counter stands above its dot, on the other side than the arrow."""
    site, count = row.changed
    message = row.handled or row.posted
    other = message.sender if row.handled else message.receiver
    x, right = panel.lanes[site], panel.lanes[other] < panel.lanes[site]
    wide = width_of(str(count), 11, bold=True)
    room.take((x + 8, y - 16, x + 10 + wide, y - 2) if right else (x - 10 - wide, y - 16, x - 8, y - 2))
    return text(x + (9 if right else -9), y - 5, str(count), "counter small strong halo", "start" if right else "end")


def still_open(panel, when):
    """What is in flight at the end, in words beside the ends of its arrows."""
    if not panel.open:
        return ""
    kinds = tuple(panel.kept.kinds.values())
    return text(panel.text_x, panel.end + 4, "in flight %s: %s" % (when, kinds_words(kinds)), "quiet")


def drawn_panel(panel, when):
    parts = ['<g class="panel" data-pointer="%s">' % ("" if panel.pointer is None else panel.pointer)]
    parts += list(head(panel)) + list(rows(panel))
    room = Room()
    if panel.kept:
        parts += lifelines(panel)
    marks = list(dots(panel, room))
    plates = list(strips(panel, room))
    if panel.kept:
        parts += arrows(panel, room)
    return parts + plates + marks + [still_open(panel, when), "</g>"]


def panels_of(run, pointer, name):
    """A panel for each pointer that some line concerns, and one for the other lines; of a desk with one pointer, one for all."""
    if pointer is None and run.books and len(run.books.pointers) == 1:
        groups = [(0, run.rows)]
    elif pointer is not None:
        groups = [(pointer, run.concerns(pointer))]
    else:
        groups = [(each, run.concerns(each)) for each in run.touched()]
        others = [row for row in run.rows if row.pointer is None and (row.number > 1 or not groups)]
        groups += [(None, others)] if others else []
    panels, top = [], 10
    for each, chosen in groups:
        panels.append(Panel(run, chosen, each, name, top))
        top = panels[-1].bottom + GAP
    return panels


def drawing(run, pointer, name, when):
    """The whole drawing as text."""
    panels = panels_of(run, pointer, name)
    width = max([panel.width for panel in panels] + [560])
    signs, bottom = legend(panels[-1].bottom + 10, width)
    said = "%s: %d lines, %d messages. Time runs down, a column for each site, an arrow for each message." % (
        name, len(run.rows), sum(len(panel.messages) for panel in panels))
    parts = ['<svg xmlns="http://www.w3.org/2000/svg" width="%s" height="%s" viewBox="0 0 %s %s" role="graphics-document" aria-labelledby="what how">'
             % ((number(width), number(bottom)) * 2),
             '<title id="what">%s</title><desc id="how">%s</desc>' % (escaped(panels[0].title), escaped(said)),
             style(), heads(), rect(0, 0, width, bottom, "page")]
    for panel in panels:
        parts += drawn_panel(panel, when)
    return "\n".join(part for part in parts + signs if part) + "\n</svg>\n"
