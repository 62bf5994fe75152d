"""What the checks share."""

import os

from tool import ROOT

CASES = os.path.join(ROOT, "cases")


def hold(true, why=""):
    if not true:
        raise AssertionError(why)


def case(name):
    return os.path.join(CASES, name + ".in"), os.path.join(CASES, name + ".out")


def read(path):
    with open(os.path.join(ROOT, path), encoding="utf-8") as file:
        return file.read()


def text_file(room, name, text):
    path = os.path.join(room, name)
    with open(path, "wb") as file:
        file.write(text if isinstance(text, bytes) else text.encode())
    return path
