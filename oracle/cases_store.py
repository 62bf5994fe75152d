"""The stored cases: how they are made, and how they are read."""

import pathlib

import case_lines
import case_openings
import case_stories
import program
from case_parts import answers

FOLDER = pathlib.Path(__file__).resolve().parent.parent / "cases"
README_HEAD = """# Cases

`NAME.in` is an input of `desk` and `NAME.out` is what it must write, byte for byte. An output is
written by hand from document 01 (*hand*) or comes from the independent program in `oracle/`
(*program*); none comes from the desk under test. `oracle/make_cases` writes this folder anew.

| Case | Output by | Shows |
|---|---|---|
"""


def all_cases():
    return case_stories.all_cases() + case_openings.all_cases() + case_lines.all_cases()


def expected_output(case):
    """By hand where the case has it, and then this program must agree; else from this program."""
    given = program.run(case.text)
    if case.expected is not None and answers(case.expected) != given:
        raise ValueError("case %s: by hand %r, by program %r" % (case.name, case.expected, given))
    return given


def readme_text():
    rows = ["| %s | %s | %s |\n" % (case.name, "program" if case.expected is None else "hand", case.shows)
            for case in all_cases()]
    return README_HEAD + "".join(rows)


def files():
    """Every file of the folder by name."""
    made = {"README.md": readme_text().encode()}
    for case in all_cases():
        made[case.name + ".in"] = case.text
        made[case.name + ".out"] = expected_output(case)
    return made


def stored_cases():
    """Name, input and output of every case on disk, the fourteen lines first."""
    paths = sorted(FOLDER.glob("*.in"), key=lambda path: (path.stem != "fourteen", path.stem))
    return [(path.stem, path.read_bytes(), path.with_suffix(".out").read_bytes()) for path in paths]
