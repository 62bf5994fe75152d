"""What a run is read from: the input, its answers, the program `desk`; and how answers given are held against desk's own."""

import os
import subprocess

from .books import whole
from .forms import KINDS, LONGEST_INPUT, answer_of, lines_of, quote_of_answer, quote_of_opening
from .refusals import NUMBERS, name_of

ROOT = os.path.dirname(os.path.dirname(os.path.dirname(os.path.abspath(__file__))))
LARGEST_FILE = 1 << 20
TEXT = bytes(range(32, 127)) + b"\t\r\n"


class Unusable(Exception):
    """What cannot be read, run or written; its words are all that is said."""


def shown(path):
    """A path that can stand in a line of words."""
    return "".join(character if character.isprintable() else "?" for character in path)


def why_not(error):
    return getattr(error, "strerror", None) or str(error)


def file_bytes(path):
    """All bytes of a file of a sensible size."""
    try:
        with open(path, "rb") as file:
            text = file.read(LARGEST_FILE + 1)
    except (OSError, ValueError) as error:
        raise Unusable("%s cannot be read: %s" % (shown(path), why_not(error)))
    if len(text) > LARGEST_FILE:
        raise Unusable("%s has more than %s bytes, and desk reads %s" % (
            shown(path), format(LARGEST_FILE, ","), format(LONGEST_INPUT, ",")))
    if not text:
        raise Unusable("%s is empty" % shown(path))
    return text


def input_bytes(path):
    """IN, which is a text. Bytes that are none are told with their line where a desk opens, and named at once where none does."""
    text = file_bytes(path)
    odd = [place for place, byte in enumerate(text) if byte not in TEXT] if quote_of_opening(lines_of(text)[0]) else []
    if odd:
        raise Unusable("%s is no text: byte %s is %02X, and its first line opens no desk" % (
            shown(path), format(odd[0] + 1, ","), text[odd[0]]))
    return text


def answers_of(text, path):
    """The answer lines of an output."""
    answers = lines_of(text)
    for number, line in enumerate(answers, 1):
        broken = quote_of_answer(line)
        if broken:
            raise Unusable("%s: line %d is no answer: %s" % (shown(path), number, broken))
    return answers


def desk_answers(text):
    """What desk answers to an input."""
    program = os.environ.get("DESK") or os.path.join(ROOT, "crates", "desk", "out", "desk")
    if not os.path.exists(program):
        raise Unusable("desk is not built, there is no %s: `rt run` in crates/desk builds it; or give OUT" % shown(os.path.relpath(program)))
    try:
        done = subprocess.run([program], input=text, stdout=subprocess.PIPE, stderr=subprocess.PIPE, timeout=60)
    except subprocess.TimeoutExpired:
        raise Unusable("%s gives no answer within a minute" % shown(program))
    except OSError as error:
        raise Unusable("%s does not run: %s" % (shown(program), why_not(error)))
    if done.returncode:
        raise Unusable("%s ended with %d" % (shown(program), done.returncode))
    return answers_of(done.stdout, program)


def surplus(text, answers, path):
    """One answer for each line, and after a refused opening one alone: fewer are unusable, and the first too many is wrong."""
    lines = len(lines_of(text))
    wanted = 1 if answers and answer_of(answers[0]).number else lines
    if len(answers) < wanted:
        raise Unusable("%s has %s for %s: line %d has none" % (
            shown(path), whole(len(answers), "answer"), whole(lines, "line"), len(answers) + 1))
    if len(answers) == wanted:
        return None
    why = "the opening was refused, and nothing after it is answered" if wanted < lines else "the input has %s" % whole(lines, "line")
    return wanted + 1, "an answer for no line: %s" % why


def answer_in_words(answer):
    number, value, message = answer_of(answer)
    if number:
        return name_of(number) if number in NUMBERS else "number %02X" % number
    posted = "no message" if message is None else message.words() if message.kind in KINDS else "no known message"
    return "accepted, value %d, %s" % (value, posted)


def difference(answers, own):
    """The first line whose answer is not desk's own, and both in words; None where there is none."""
    for number in range(max(len(answers), len(own))):
        pair = [side[number] if number < len(side) else None for side in (answers, own)]
        if pair[0] != pair[1]:
            said = ["%s (%s)" % (side.decode(), answer_in_words(side)) if side else "nothing" for side in pair]
            return number + 1, "OUT answers %s, and desk answers %s" % tuple(said)
    return None
