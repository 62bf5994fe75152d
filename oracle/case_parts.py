"""The words in which stored cases are written."""

from collections import namedtuple

# expected: the answer lines by hand from document 01, or None where this program supplies them.
Case = namedtuple("Case", "name shows text expected")

OPENED = "0000000000000000"
THREE_SITES = "03000400"


def refusal(number):
    """Number, value 0 and no message."""
    return "%02X" % number + "0" * 14


def accepted(value=0, message="0000000000"):
    return "00%04X%s" % (value, message)


def lines(*texts):
    """An input of whole lines."""
    return "".join(text + "\n" for text in texts).encode("latin-1")


def case(name, shows, text, expected=None):
    return Case(name, shows, text, expected)


def answers(case_expected):
    """What `desk` writes, from answer lines."""
    return "".join(line + "\n" for line in case_expected).encode()
