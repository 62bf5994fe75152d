"""A run: every line with its answer, and what the books hold after it."""

from .books import Books, CannotBe
from .forms import COPY, DELETE, Opening, answer_of, call_of, lines_of, opening_of, quote_of_call, quote_of_opening
from .refusals import NUMBERS, cause_of

LISTED = 4      # so many messages in flight are named in a row; more are counted


class Row:
    """One line: the call, its answer, and the books of its pointer after it."""

    def __init__(self, number, line, call, answer):
        self.number, self.line, self.call, self.answer = number, line, call, answer
        self.pointer = None     # the pointer that the line concerns
        self.handled = None     # the message that was received
        self.refused = None     # the message whose receive was refused
        self.posted = None
        self.changed = None     # (site, count): the counter that changed
        self.gained = self.lost = None      # the site that holds from here on, or no longer
        self.cause = None       # why it was refused, in words
        self.owner = None
        self.holders, self.others = (), ()
        self.owner_count = None
        self.flight, self.kinds = (), (0, 0, 0)

    def note(self, books):
        """What the books hold now for the line's pointer."""
        if self.pointer is None:
            return
        kept = books.pointers[self.pointer]
        self.owner, self.holders = kept.owner, tuple(sorted(kept.holders))
        self.owner_count = kept.count(kept.owner)
        self.others = tuple(sorted((s, n) for s, n in kept.counts.items() if n and s != kept.owner))
        self.kinds = tuple(kept.kinds.values())
        self.flight = tuple(sorted(kept.flight.values(), key=lambda m: m.posted)) if len(kept.flight) <= LISTED else None


class Run:
    """The rows of an input and its answers; `wrong` names the first line that cannot be."""

    def __init__(self, text, answers, last=None):
        self.size = len(text)
        self.lines = lines_of(text)
        self.books = None
        self.rows = []
        self.wrong = None
        for number, (line, answer) in enumerate(zip(self.lines, answers), 1):
            if last is not None and number > last:
                break
            row = Row(number, line, (opening_of if number == 1 else call_of)(line), answer_of(answer))
            try:
                self.take(row)
            except CannotBe as why:
                self.wrong = number, str(why)
                break
            self.rows.append(row)
            if self.stopped():
                break

    def stopped(self):
        """The opening was refused: nothing after it is answered."""
        return bool(self.rows) and self.rows[0].answer.number != 0

    def take(self, row):
        if row.answer.number:
            self.refuse(row)
        elif row.call is None:
            broken = (quote_of_opening if row.number == 1 else quote_of_call)(row.line)
            raise CannotBe("accepted, and the line is no call: %s" % (broken or "its code names none"))
        elif isinstance(row.call, Opening):
            if row.answer.value or row.answer.message:
                raise CannotBe("an opening has value 0 and posts nothing")
            self.books = Books(row.call)
            if len(self.books.pointers) == 1:
                row.pointer = 0
                row.note(self.books)
        else:
            self.accept(row)

    def refuse(self, row):
        number, value, message = row.answer
        if number not in NUMBERS:
            raise CannotBe("its number is %02X, and no refusal has that number" % number)
        if value or message:
            raise CannotBe("a refusal has value 0 and posts nothing")
        if self.books and row.call:
            row.pointer = self.books.pointer_of(row.call)
            row.refused = self.books.slots.get(row.call.slot)
            row.note(self.books)
        row.cause = cause_of(self, row)

    def accept(self, row):
        row.pointer = self.books.pointer_of(row.call)
        row.handled = self.books.slots.get(row.call.slot)
        before = row.handled and row.handled.receiver in self.books.pointers[row.pointer].holders
        row.changed = self.books.accept(row.call, row.answer, row.number)
        row.posted = row.answer.message
        if row.handled and row.handled.kind == COPY and not before:
            row.gained = row.handled.receiver
        if row.call.verb == DELETE:
            row.lost = row.call.site
        row.note(self.books)

    def concerns(self, pointer):
        """The opening, and the rows that concern a pointer; without one, all."""
        if pointer is None:
            return self.rows
        return [row for row in self.rows if row.number == 1 or row.pointer == pointer]

    def touched(self):
        """The pointers that some line concerns."""
        return sorted({row.pointer for row in self.rows if row.pointer is not None})
