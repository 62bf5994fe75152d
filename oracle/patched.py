"""This program's own modules with small patches in their source: wrong desks to be caught."""

import pathlib
import sys
import types
from collections import namedtuple
from functools import lru_cache

# wrong: the wrong rule in words; patches: the changes of source that make it.
Mutant = namedtuple("Mutant", "wrong patches")
# An empty `old` puts `new` at the module's end; otherwise `old` must stand there exactly once.
Patch = namedtuple("Patch", "module old new")

FOLDER = pathlib.Path(__file__).resolve().parent
# In an order in which each needs only those before it.
MODULES = ("refusals", "desk", "tables", "book", "lines", "program", "in_order", "in_order_tables",
           "word_tables", "lent_text")


def mutant(wrong, module, old, new, *more):
    """A wrong desk made by one patch, or by more of them in threes."""
    texts = (module, old, new) + more
    return Mutant(wrong, [Patch(*texts[at:at + 3]) for at in range(0, len(texts), 3)])


def swapped(wrong, module, first, second):
    """A wrong desk that makes two neighbouring tests in the other order."""
    return mutant(wrong, module, first + second, second + first)


def patched_source(name, patches):
    source = (FOLDER / (name + ".py")).read_text()
    for patch in patches:
        if patch.module == name and patch.old == "":
            source += "\n\n" + patch.new
        elif patch.module == name:
            if source.count(patch.old) != 1:
                raise ValueError("%s has %d times: %s" % (name, source.count(patch.old), patch.old))
            source = source.replace(patch.old, patch.new)
    return source


@lru_cache(maxsize=64)
def code_of(name, source):
    """Compiled once for all wrong desks that leave this module as it is."""
    return compile(source, name + ".py", "exec")


def load(patches, more_modules=()):
    """Fresh copies of the modules, patched, as a map by name; the true ones stay in place."""
    names = MODULES + tuple(more_modules)
    kept = {name: sys.modules.pop(name) for name in names if name in sys.modules}
    loaded = {}
    try:
        for name in names:
            loaded[name] = sys.modules[name] = types.ModuleType(name)
            exec(code_of(name, patched_source(name, patches)), loaded[name].__dict__)
    finally:
        for name in names:
            sys.modules.pop(name, None)
        sys.modules.update(kept)
    return loaded
