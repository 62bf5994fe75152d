"""The arrows of a panel: one for each message, from its post to its receive, and their labels where there is room."""

import math

from .forms import KINDS
from .panel import kind_class
from .svg import number, rect, text, titled, width_of

TIP, TAIL = 5, 4            # an arrow begins and ends beside the dots
PLACES = (0.5, 0.4, 0.6, 0.32, 0.68, 0.25, 0.75)
CELL = 40                   # labels are compared with those of their neighbourhood


class Room:
    """The boxes that are taken, so that no label stands on another."""

    def __init__(self):
        self.taken = {}

    def near(self, box):
        x1, y1, x2, y2 = box
        return [(a, b) for a in range(int(x1 // CELL), int(x2 // CELL) + 1) for b in range(int(y1 // CELL), int(y2 // CELL) + 1)]

    def take(self, box):
        for cell in self.near(box):
            self.taken.setdefault(cell, []).append(box)

    def is_free(self, box):
        x1, y1, x2, y2 = box
        return not any(x1 < b[2] and b[0] < x2 and y1 < b[3] and b[1] < y2
                       for cell in self.near(box) for b in self.taken.get(cell, ()))


def ends(panel, message):
    """Where an arrow begins and ends; one that is still in flight ends under the last row."""
    x1, x2 = panel.lanes[message.sender], panel.lanes[message.receiver]
    y1 = panel.y[message.posted]
    y2 = panel.end if message.received is None else panel.y[message.received]
    return x1, y1, x2, y2


def stem(x1, y1, x2, y2):
    """A straight line between the dots; a message of a site to itself goes round beside its lifeline."""
    if x1 == x2:
        return "M%s %sC%s %s %s %s %s %s" % tuple(map(number, (x1 + TAIL, y1, x1 + 34, y1, x1 + 34, y2, x1 + TIP, y2)))
    length = math.hypot(x2 - x1, y2 - y1)
    ux, uy = (x2 - x1) / length, (y2 - y1) / length
    return "M%s %sL%s %s" % tuple(map(number, (x1 + TAIL * ux, y1 + TAIL * uy, x2 - TIP * ux, y2 - TIP * uy)))


def title_of(panel, message):
    fate = "still in flight" if message.received is None else "received at line %d" % message.received
    return "%s, pointer %d: posted at line %d into slot %d, %s" % (message.words(), message.pointer, message.posted, message.slot, fate)


def arrow(panel, message):
    kind, path = kind_class(message), stem(*ends(panel, message))
    parts = ['<path class="wide" d="%s"/>' % path,
             '<path class="stem %s" marker-end="url(#%s-head)" d="%s"/>' % (kind, kind, path)]
    data = (("kind", KINDS[message.kind]), ("posted", message.posted), ("received", message.received or ""), ("slot", message.slot))
    return titled(title_of(panel, message), parts, "arrow open" if message.received is None else "arrow", data)


def label(panel, message, room):
    """The kind on its arrow at the first free place, rather off the lifelines; nothing where none is free."""
    x1, y1, x2, y2 = ends(panel, message)
    words = KINDS[message.kind]
    half = width_of(words, 11, bold=True) / 2
    if abs(x2 - x1) < 2 * half - 8 and abs(y2 - y1) < 40:
        return ""
    boxes = [(x - half, y - 7, x + half, y + 7) for x, y in ((x1 + (x2 - x1) * t, y1 + (y2 - y1) * t) for t in PLACES)]
    free = [box for box in boxes if room.is_free(box)]
    if not free:
        return ""
    clear = [box for box in free if not any(box[0] - 6 < lane < box[2] + 6 for lane in panel.lanes.values())]
    box = (clear or free)[0]
    room.take(box)
    return rect(box[0], box[1], 2 * half, 14, "plate", 4) + text(
        box[0] + half, box[1] + 11, words, "small strong %s-text" % kind_class(message), "middle")


def arrows(panel, room):
    """All arrows, then all labels, so that no arrow crosses a word."""
    labels = [label(panel, message, room) for message in panel.messages]
    return [arrow(panel, message) for message in panel.messages] + ['<g class="labels">'] + labels + ["</g>"]
