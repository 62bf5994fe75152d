"""The command: its arguments, what it writes, and how it ends."""

import argparse
import os
import sys

from .after import state_lines
from .books import whole
from .draw import drawing
from .run import Run
from .sources import Unusable, answers_of, desk_answers, difference, file_bytes, input_bytes, shown, surplus, why_not
from .table import told

HELP = """\
story IN [OUT] [--pointer P] [--at LINE] [--svg FILE] [--check]

Tells what happened in a run of `desk`: a row for each line of IN, in words.

  IN           an input of desk
  OUT          its output; without it, desk is run on IN
  --pointer P  only what concerns pointer P, receives of its messages included
  --at LINE    the desk after that line: holders, counters, slots, sheet and
               shares, and why ask says no
  --svg FILE   draws the run, up to LINE if given; - is the standard output
  --check      compares OUT with what desk answers

Numbers are decimal, or hexadecimal as 0x1F. The answers are believed, and the
books are kept from them alone. Ends with 0; with 1 where a line of OUT cannot
be, or differs; with 2 where something cannot be read or written. Colours are
for terminals, and not where NO_COLOR is set. DESK names another desk to run.

  tools/story cases/fourteen.in
  tools/story cases/late-copy.in cases/late-copy.out --pointer 0 --svg late.svg
"""


class Differs(Exception):
    """A line of OUT that cannot be, or differs from what desk answers."""


class Parser(argparse.ArgumentParser):
    def error(self, message):
        raise Unusable("%s; --help says how" % message)


def number(words):
    try:
        return int(words, 16 if words.lower().startswith("0x") else 10)
    except ValueError:
        raise argparse.ArgumentTypeError("%s is no number" % shown(words))


def arguments(words):
    parser = Parser(prog="story", add_help=False, allow_abbrev=False)
    parser.add_argument("-h", "--help", action="store_true")
    parser.add_argument("input", metavar="IN", nargs="?")
    parser.add_argument("output", metavar="OUT", nargs="?")
    parser.add_argument("--pointer", metavar="P", type=number)
    parser.add_argument("--at", metavar="LINE", type=number)
    parser.add_argument("--svg", metavar="FILE")
    parser.add_argument("--check", action="store_true")
    given = parser.parse_intermixed_args(words)
    if not given.help and given.input is None:
        raise Unusable("no IN is given; --help says how")
    if given.check and given.output is None:
        raise Unusable("--check compares OUT with desk, and no OUT is given")
    return given


def read_run(given):
    """The run up to the line that was asked for, and the first line of OUT that is wrong, as (number, words), or None."""
    text = input_bytes(given.input)
    if given.output is None:
        answers, extra = desk_answers(text), None
    else:
        answers = answers_of(file_bytes(given.output), given.output)
        extra = surplus(text, answers, given.output)
    differs = difference(answers, desk_answers(text)) if given.check else None
    run = Run(text, answers, differs[0] - 1 if differs else None)
    wrong = run.wrong or differs or extra
    look_at_line(run, given)
    if given.at is not None and (wrong is None or wrong[0] > given.at):
        run = Run(text, answers, given.at)
    return run, wrong


def look_at_line(run, given):
    """The line that was asked for is there, and was answered."""
    if given.at is None:
        return
    if not 1 <= given.at <= len(run.lines):
        raise Unusable("--at %d: %s has %s" % (given.at, shown(given.input), "the lines 1 to %d" % len(run.lines)))
    if given.at > 1 and run.stopped():
        raise Unusable("--at %d: the opening was refused, and nothing after it was answered" % given.at)


def look_at_pointer(run, given):
    """The pointer that was asked for is there."""
    if given.pointer is None or not run.rows:
        return
    if run.books is None:
        raise Unusable("--pointer %d: no desk was opened" % given.pointer)
    count = len(run.books.pointers)
    if not 0 <= given.pointer < count:
        there = "no pointer" if count == 0 else "pointer 0 alone" if count == 1 else "pointers 0 to %d" % (count - 1)
        raise Unusable("--pointer %d: this desk has %s" % (given.pointer, there))


def first_line(run, given, rows):
    """What is told: the file, the pointer, how many of its lines."""
    name = shown(os.path.basename(given.input))
    if given.pointer is None:
        return "%s: %s" % (name, whole(len(run.lines), "line"))
    owner, concerned = run.books.pointers[given.pointer].owner, sum(row.pointer == given.pointer for row in rows)
    return "%s, pointer %d: owner site %d; %d of %s concern it" % (name, given.pointer, owner, concerned, whole(len(run.lines), "line"))


def colours():
    return sys.stdout.isatty() and not os.environ.get("NO_COLOR") and os.environ.get("TERM") != "dumb"


def tell(run, given):
    """The words that were asked for, line by line."""
    if given.at is not None:
        yield "%s after line %d of %d" % (shown(os.path.basename(given.input)), given.at, len(run.lines))
        yield from state_lines(run, given.pointer) if run.books else ["no desk was opened"]
        return
    rows = run.concerns(given.pointer)
    yield first_line(run, given, rows)
    yield from told(rows, colours(), given.pointer is not None or (run.books and len(run.books.pointers) == 1))


def draw(run, given):
    """Writes the drawing; gives what is to be said."""
    when = "at the end" if given.at is None else "after line %d" % given.at
    picture = drawing(run, given.pointer, shown(os.path.basename(given.input)), when)
    if given.svg == "-":
        return picture
    try:
        with open(given.svg, "w", encoding="utf-8") as file:
            file.write(picture)
    except (OSError, ValueError) as error:
        raise Unusable("%s cannot be written: %s" % (shown(given.svg), why_not(error)))
    return "%s: %s drawn\n" % (shown(given.svg), whole(len(run.concerns(given.pointer)), "line"))


def show(run, given):
    """The drawing, the words, or both."""
    look_at_pointer(run, given)
    if given.svg is not None:
        sys.stdout.write(draw(run, given))
    if given.svg is None or (given.at is not None and given.svg != "-"):
        sys.stdout.write("\n".join(tell(run, given)) + "\n")


def story(words):
    given = arguments(words)
    if given.help:
        sys.stdout.write(HELP)
        return
    run, wrong = read_run(given)
    if run.rows and (given.at is None or len(run.rows) == given.at):
        show(run, given)
    if wrong:
        raise Differs("line %d%s: %s" % (wrong[0], " cannot be" * (not given.check), wrong[1]))
    if given.check:
        sys.stdout.write("%s is what desk answers\n" % shown(given.output))


def close_output():
    """Nothing more is written: the reader has gone, or there is no room."""
    os.dup2(os.open(os.devnull, os.O_WRONLY), sys.stdout.fileno())


def main(words):
    """0; 1 where a line of OUT cannot be or differs; 2 where something cannot be read or written."""
    sys.stdout.reconfigure(encoding="utf-8", errors="replace")
    sys.stderr.reconfigure(encoding="utf-8", errors="replace")
    try:
        story(words)
        sys.stdout.flush()
        return 0
    except (Unusable, Differs) as why:
        sys.stdout.flush()
        sys.stderr.write("story: %s\n" % why)
        return 2 if isinstance(why, Unusable) else 1
    except BrokenPipeError:
        close_output()
        return 0
    except OSError as error:
        close_output()
        sys.stderr.write("story: the words cannot be written: %s\n" % why_not(error))
        return 2
    except KeyboardInterrupt:
        return 130
