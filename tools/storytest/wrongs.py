"""What cannot be, what differs, what cannot be read; and every stored case, good or not."""

import glob
import os
import re
import tempfile

import tool
from parts import CASES, case, hold, text_file

# Answers to the fourteen lines that cannot be: the line that is changed, what it is changed to, and what is said.
IMPOSSIBLE = (
    (2, "0000000000000000", "line 2 cannot be: it posts no message"),
    (2, "0000000200010000", "line 2 cannot be: it posts DEC 0→1 for pointer 0"),
    (2, "0000090100010000", "line 2 cannot be: it posts into slot 9, and the slots are 0 to 3"),
    (3, "0000000203000000", "line 3 cannot be: it posts DEC 3→0, and the sites are 0 to 2"),
    (3, "0000000402000000", "line 3 cannot be: the posted message has kind 4, and the kinds are 1 to 3"),
    (2, "0000010100010000", "line 3 cannot be: a message is received from slot 0, and none was posted there"),
    (6, "0000000202000000", "line 6 cannot be: it posts into slot 0, which still holds INC_DEC 2→0 (third 1), posted at line 5"),
    (7, "0900010000000000", "line 7 cannot be: a refusal has value 0 and posts nothing"),
    (7, "6300000000000000", "line 7 cannot be: its number is 63, and no refusal has that number"),
    (8, "0000010000000000", "line 8 cannot be: ask says yes, and the owner's counter is 1"),
    (9, "0000010201020000", "line 9 cannot be: slot 0 is received, and the answer names slot 1"),
    (14, "0000000000000000", "line 14 cannot be: ask says no, and the owner's counter is 0"),
    (15, "0000000000000000", "line 15 cannot be: an answer for no line: the input has 14 lines"),
)


def the_impossible():
    """The first line of OUT that cannot be is named; what stands before it is told."""
    path, out = case("fourteen")
    with open(out, encoding="ascii") as file:
        answers = file.read().split()
    with tempfile.TemporaryDirectory() as room:
        for line, answer, said in IMPOSSIBLE:
            changed = text_file(room, "out", "\n".join(answers[:line - 1] + [answer] + answers[line:]) + "\n")
            status, told, err = tool.within(path, changed)
            hold((status, err) == (1, "story: %s\n" % said), err)
            hold(len(tool.rows_of(told)) == int(re.search(r"line (\d+)", said)[1]) - 1, told)
        text = text_file(room, "in", "03000400\n0100010\n")
        status, _, err = tool.within(text, text_file(room, "out", "0000000000000000\n0000000100010000\n"))
        hold(status == 1 and err == 'story: line 2 cannot be: accepted, and the line is no call: "0100010": 7 characters, and a call has 8\n', err)


def the_comparison():
    """--check names the first line that differs from desk's own answers."""
    path, out = case("fourteen")
    status, told, err = tool.within(path, out, "--check")
    hold(status == 0 and told.endswith("fourteen.out is what desk answers\n") and not err, err)
    with tempfile.TemporaryDirectory() as room:
        with open(out, encoding="ascii") as file:
            changed = text_file(room, "out", file.read().replace("09000000", "08000000"))
        status, told, err = tool.within(path, changed)
        hold(status == 0 and "the books show no cause for it" in told, told)
        status, told, err = tool.within(path, changed, "--check")
        hold(status == 1 and err == "story: line 7: OUT answers 0800000000000000 (8 EmptySlot), and desk answers 0900000000000000 (9 Held)\n", err)


def the_unusable():
    """One clear line and 2 for what cannot be read, written or run; never a trace."""
    path, out = case("fourteen")
    with tempfile.TemporaryDirectory() as room:
        empty, binary = text_file(room, "empty", b""), text_file(room, "binary", bytes(range(256)))
        short = text_file(room, "short", "0000000000000000\n")
        tried = {
            (os.path.join(room, "missing"),): "cannot be read: No such file",
            (room,): "cannot be read: Is a directory",
            (empty,): "is empty", (path, empty): "is empty",
            (binary,): "is no text: byte 1 is 00", (path, binary): "line 1 is no answer",
            (path, short): "has 1 answer for 14 lines: line 2 has none",
            (path, path): "line 1 is no answer",
            (path, "--pointer", "1"): "this desk has pointer 0 alone", (path, "--pointer", "x"): "x is no number",
            (path, "--at", "0"): "has the lines 1 to 14", (path, "--at", "15"): "has the lines 1 to 14",
            (path, "--svg", room): "cannot be written", (path, "--svg", os.path.join(room, "no", "x.svg")): "cannot be written",
            (path, "--check"): "no OUT is given", (): "no IN is given", (path, out, "more"): "--help", ("--what",): "--help",
            (case("refusal-01-bad-shape")[0], "--at", "2"): "", (case("refusal-01-bad-shape")[0], "--pointer", "0"): "no desk was opened",
        }
        for place, (words, said) in enumerate(tried.items()):
            status, told, err = (tool.process if place < 4 else tool.within)(*words)
            hold((status, told, err.count("\n")) == (2, "", 1) and err.startswith("story: ") and said in err, "%s: %s %s" % (words, status, err))
        status, _, err = tool.process(path, DESK=os.path.join(room, "nothing"))
        hold(status == 2 and "`rt run` in crates/desk builds it" in err and err.count("\n") == 1, err)


def the_cases():
    """Every stored case is told and drawn, or is one that cannot be."""
    for path in sorted(glob.glob(os.path.join(CASES, "*.in"))):
        status, told, err = tool.within(path, path[:-2] + "out") if os.path.getsize(path[:-2] + "out") else tool.within(path)
        hold(status in (0, 2) and bool(told) == (status == 0) and "no cause" not in told, "%s: %s" % (path, err))
        if status == 0 and told.count("\n") < 600:
            picture = tool.within(path, path[:-2] + "out", "--svg", "-")[1]
            hold(not list(tool.outside(picture)), "%s: %s" % (path, list(tool.outside(picture))))
