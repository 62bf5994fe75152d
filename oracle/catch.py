"""Tries wrong desks against the stored cases, random inputs and lent calls."""

import wrong_lines
import wrong_machine
import wrong_order
import wrong_tables
import wrong_words
from cases_store import stored_cases
from lent_tables import lent_lines
from line_calls import line_call_lines
from ordered_calls import ordered_lines
from patched import load
from random_runs import numbered_input
from word_calls import word_lines

SEED = "mutants"


class Evidence:
    """What wrong desks are tried against; all of it comes from the true program or by hand."""

    def __init__(self, inputs, lent_calls, line_calls, ordered_calls, word_calls):
        self.cases = stored_cases()
        self.inputs = [("input %d" % number,) + numbered_input(SEED, number) for number in range(inputs)]
        self.lent_lines = list(lent_lines(SEED, lent_calls))
        self.line_calls = list(line_call_lines(SEED, line_calls))
        self.ordered_calls = list(ordered_lines(SEED, ordered_calls))
        self.word_calls = list(word_lines(SEED, word_calls))


def all_mutants():
    return (wrong_machine.all_mutants() + wrong_tables.all_mutants() + wrong_lines.all_mutants()
            + wrong_order.all_mutants() + wrong_words.all_mutants())


def failure(judge):
    """How a wrong desk fails: by a wrong answer, by none at all, or not (None)."""
    try:
        return None if judge() else "wrong"
    except Exception as crash:
        return "no answer, " + type(crash).__name__


def first_failure(named_judges):
    """The name of the first judge that a wrong desk fails, or None."""
    for name, judge in named_judges:
        how = failure(judge)
        if how is not None:
            return name if how == "wrong" else "%s (%s)" % (name, how)
    return None


def first_case(modules, cases):
    """The first input whose output is wrong."""
    run = modules["program"].run
    return first_failure((name, lambda: run(text) == output) for name, text, output in cases)


def first_lent(modules, lines):
    """The first lent call that is answered wrongly."""
    judge = modules["lent_text"].judge
    return first_failure(("call %d, %s" % (number, line.split(" ")[0]), lambda: judge(line) is None)
                         for number, line in enumerate(lines))


def tries_for(mutant, evidence):
    """What can show a wrong desk at all: lines do not come by lent tables, nor books by `desk`."""
    modules = load(mutant.patches)
    touched = {patch.module for patch in mutant.patches}
    tries = []
    if touched <= {"in_order", "in_order_tables"}:
        tries.append(("calls in order", lambda: first_lent(modules, evidence.ordered_calls)))
        if touched:
            return tries
    if touched <= {"word_tables"}:
        tries.append(("calls on words", lambda: first_lent(modules, evidence.word_calls)))
        if touched:
            return tries
    if not touched or not touched <= {"lines", "program"}:
        tries.append(("lent tables", lambda: first_lent(modules, evidence.lent_lines)))
    if not touched or touched & {"lines", "lent_text"}:
        tries.append(("lent texts", lambda: first_lent(modules, evidence.line_calls)))
    if touched != {"book"}:
        tries.append(("cases", lambda: first_case(modules, evidence.cases)))
        tries.append(("random inputs", lambda: first_case(modules, evidence.inputs)))
    return tries


def all_that_catch(mutant, evidence):
    """What catches a wrong desk, by kind."""
    found = {kind: attempt() for kind, attempt in tries_for(mutant, evidence)}
    return {kind: what for kind, what in found.items() if what is not None}


def is_caught(mutant, evidence):
    """Whether anything catches a wrong desk."""
    return any(attempt() for _, attempt in tries_for(mutant, evidence))
