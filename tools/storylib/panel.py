"""The places of a panel: the lifelines, the rows and the columns of words for one pointer."""

from .forms import Opening
from .svg import width_of
from .words import call_words, flight_words, kinds_words, name_of, posted_words, says, whole

ROW, STRIP, EVERY = 34, 34, 30        # a row's height; after so many rows the names of the sites stand again
HEAD, FOOT = 84, 22
LEFT, NUMBERS = 24, 58
ALL_LANES = 16                        # a desk of more sites shows those that take part
LEAST, WIDEST, FLIGHT = 290, 680, 310  # widths of the words beside the lifelines, and of what is in flight


def shortened(words, size):
    """Words that fit the column; the whole of them stands in the row's title."""
    if width_of(words, size) <= WIDEST:
        return words
    while width_of(words + "…", size) > WIDEST:
        words = words[:-1]
    return words + "…"


def folded_flight(row):
    """The messages in flight by name where these are few and short, and else their count."""
    words = flight_words(row)
    return words if width_of(words, 12) <= FLIGHT else kinds_words(row.kinds)


class Panel:
    """Where everything of one panel stands; `pointer` is None for lines that concern none."""

    def __init__(self, run, rows, pointer, name, top):
        self.run, self.rows, self.pointer, self.top = run, rows, pointer, top
        self.kept = run.books.pointers[pointer] if pointer is not None else None
        self.messages = [m for m in run.books.messages if m.pointer == pointer] if run.books else []
        self.open = [m for m in self.messages if m.received is None]
        self.title = "%s, %s" % (name, "pointer %d: owner site %d" % (pointer, self.kept.owner) if self.kept else "lines that concern no pointer")
        self.words = {row.number: self.words_of(row) for row in rows}
        sites = self.sites_drawn()
        start = LEFT + NUMBERS
        if len(sites) <= ALL_LANES:         # the lifelines first; of many, the words, so that they are seen at once
            self.place_columns(self.place_lanes(sites, start))
        else:
            self.place_lanes(sites, self.place_columns(start))
        self.width += LEFT
        self.place_rows()

    def taking_part(self):
        sites = {self.kept.owner} | self.kept.holders
        for message in self.messages:
            sites |= {message.sender, message.receiver}
        for row in self.rows:
            sites.add(self.site_of(row))
        return sorted(site for site in sites if site is not None and site < self.run.books.sites)

    def sites_drawn(self):
        if self.kept is None:
            return []
        return list(range(self.run.books.sites)) if self.run.books.sites <= ALL_LANES else self.taking_part()

    def place_lanes(self, sites, start):
        """The lifelines from `start` on; gives where they end."""
        self.gap = 112 if len(sites) <= 6 else max(46, 700 // len(sites))
        self.lanes = {site: start + 30 + at * self.gap for at, site in enumerate(sites)}
        self.idle = self.run.books.sites - len(sites) if self.kept else 0
        self.width = max(self.lanes.values(), default=start - 44) + 44
        return self.width

    def place_rows(self):
        self.first = self.top + HEAD + (18 if self.idle else 0)
        self.y = {row.number: self.first + at * ROW + (at // EVERY) * STRIP for at, row in enumerate(self.rows)}
        self.strips = [self.y[self.rows[at].number] - (ROW + STRIP) / 2 for at in range(EVERY, len(self.rows), EVERY)]
        self.last = max(self.y.values(), default=self.first)
        self.end = self.last + (ROW + 10 if self.open else FOOT)
        self.bottom = self.end + FOOT

    def place_columns(self, start):
        """The words from `start` on: the call, what ask says, the owner's counter, what is in flight; gives where they end."""
        self.text_x = start + 18
        asks = [width_of(self.words[row.number][0], 13) for row in self.rows if says(row)]
        self.pill_x = self.text_x + max(asks, default=0) + 12
        widths = [max(width_of(main, 13), width_of(sub, 11)) for main, sub, _ in self.words.values()]
        text_end = max(self.text_x + max(widths, default=0), self.text_x + LEAST, self.pill_x + 50 if asks else 0)
        self.count_x = text_end + 40
        self.flight_x = self.count_x + 44
        self.flights = {row.number: folded_flight(row) for row in self.rows if row.pointer is not None}
        widths = [width_of(words, 12) for words in self.flights.values()]
        self.width = self.flight_x + max(widths + [60]) if self.kept else text_end
        self.width = max(self.width, LEFT + width_of(self.title, 17, bold=True))
        return self.width

    def words_of(self, row):
        """The call, what became of it, and the class of that."""
        main, sub, kind = call_words(row), "", ""
        if row.answer.number:
            sub, kind = "refused, %s: %s" % (name_of(row.answer.number), row.cause), "bad"
        elif row.posted:
            sub, kind = posted_words(row), kind_class(row.posted) + "-text"
        return shortened(main, 13), shortened(sub, 11), kind

    def site_of(self, row):
        """The site at which a row happens, or None."""
        message = row.handled or row.refused
        if message:
            return message.receiver
        return None if row.call is None or isinstance(row.call, Opening) else row.call.site

    def idle_words(self):
        return "%s with no part in it: not drawn" % whole(self.idle, "site")


def kind_class(message):
    return {1: "copy", 2: "dec", 3: "inc_dec"}[message.kind]
