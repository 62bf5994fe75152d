"""Colours, help and speed of the tool, and the pages that show it."""

import os
import pty
import re
import resource
import subprocess
import sys
import tempfile

import second
import tool
from parts import case, hold, read, text_file
from tool import ROOT


def the_colours():
    """Colours on a terminal; none where NO_COLOR is set, and none in a pipe."""
    def on_terminal(**extra):
        ours, theirs = pty.openpty()
        words = [sys.executable, tool.STORY, case("pool-of-one")[0]]
        with subprocess.Popen(words, stdout=theirs, env={**os.environ, "TERM": "xterm", **extra}) as running:
            os.close(theirs)
            said = b""
            try:
                while True:
                    part = os.read(ours, 65536)
                    if not part:
                        break
                    said += part
            except OSError:     # the terminal's other end is closed
                pass
            running.wait()
        os.close(ours)
        return said
    os.environ.pop("NO_COLOR", None)
    hold(b"\033[34mCOPY\033[0m" in on_terminal() and b"\033" not in on_terminal(NO_COLOR="1") and b"\033" not in on_terminal(TERM="dumb"))
    hold("\033" not in tool.process(case("pool-of-one")[0])[1])


def the_help():
    """One screen with two examples, which run."""
    status, told, _ = tool.process("--help")
    lines = told.splitlines()
    hold(status == 0 and len(lines) <= 24 and max(map(len, lines)) <= 80, told)
    examples = [line.split() for line in lines if line.startswith("  tools/story ")]
    hold(len(examples) == 2, told)
    for words in examples:
        shown = ["-" if word.endswith(".svg") else os.path.join(ROOT, word) if word.startswith("cases/") else word for word in words[1:]]
        hold(tool.process(*shown)[0] == 0, " ".join(words))


def the_speed():
    """A run of 850 lines is told in half a second of the processor's time, and drawn in one."""
    lines = second.random_runs.numbered_input("story", 2)[0].split(b"\n")
    hold(len(lines) > 850, "%d lines" % len(lines))
    with tempfile.TemporaryDirectory() as room:
        path = text_file(room, "long.in", b"\n".join(lines[:850]) + b"\n")
        for words, limit in (((), 0.5), (("--svg", os.path.join(room, "x.svg")), 1.0)):
            before = resource.getrusage(resource.RUSAGE_CHILDREN)
            hold(tool.process(path, *words)[0] == 0)
            after = resource.getrusage(resource.RUSAGE_CHILDREN)
            took = after.ru_utime + after.ru_stime - before.ru_utime - before.ru_stime
            print("%s: %.2f s" % ("drawn" if words else "told", took))
            hold(took < limit, "%.2f s" % took)


def the_incident():
    """docs/incident.svg is what the tool draws of docs/incident.in, README shows it, and it is the story that README prints."""
    path = os.path.join(ROOT, "docs", "incident.in")
    hold(tool.process(path, "--svg", "-")[1] == read("docs/incident.svg"), "tools/story docs/incident.in --svg docs/incident.svg makes it anew")
    readme = read("README.md")
    hold("](docs/incident.svg)" in readme)
    rows = tool.rows_of(tool.process(path)[1])
    printed = re.findall(r"^.*?  (accepted|refused|[01])(?:: (.*))?$", readme.split("Each prints:")[1].split("```")[1], re.M)
    told = [{"accepted": "accepted", "no": "0", "YES": "1"}.get(row["answer"], "refused") for row in rows]
    hold([answer for answer, _ in printed] == told, "%s, not %s" % (told, printed))
    posted = [re.sub(r"(\w+) from (\d+) to (\d+) in", r"posts \1 \2→\3 into", words) for _, words in printed if " in slot " in words]
    hold(posted == [row["posted"] for row in rows if row["posted"] != "–"], str(posted))


def the_lines_page():
    """docs/LINES.md: its lines are a run with those answers, and every part of a line has its number."""
    page = read("docs/LINES.md")
    lines = re.findall(r"^`([0-9A-Fa-f]+)`$", page, re.M)
    answers = [answer.replace(" ", "") for answer in re.findall(r"^Answer `([0-9A-F ]+)`", page, re.M)]
    with tempfile.TemporaryDirectory() as room:
        path, out = text_file(room, "in", "\n".join(lines) + "\n"), text_file(room, "out", "\n".join(answers) + "\n")
        status, _, err = tool.process(path, out, "--check")
        hold(status == 0, err)
    hold({line[:2] for line in lines[1:]} >= {"01", "02", "03", "04"})
    heads = r"\n\n\| Digits \| Decimal \| Means \|\n\|---\|---\|---\|\n"
    taken = re.findall(r"^(?:`([0-9A-F]+)`|Answer `([0-9A-F ]+)`.*)%s((?:\|.*\|\n)+)" % heads, page, re.M)
    hold(len(taken) >= 9, "%d lines are taken apart" % len(taken))
    for line, answer, table in taken:
        parts = re.findall(r"^\| `([0-9A-F]+)` \| (\d+) \|", table, re.M)
        hold("".join(digits for digits, _ in parts) == (line or answer.replace(" ", "")), table)
        hold(all(int(digits, 16) == int(number) for digits, number in parts), table)
