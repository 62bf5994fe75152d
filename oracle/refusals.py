"""The refusal numbers of document 01, 'Why a call is turned down', and of document 02."""

ACCEPTED = 0
BAD_SHAPE = 1
BAD_TABLE = 2
BAD_NAME = 3
SAME_SITE = 4
NOT_HELD = 5
COUNTER_FULL = 6
POOL_FULL = 7
EMPTY_SLOT = 8
HELD = 9
COUNTER_ZERO = 10
IS_OWNER = 11
STILL_COUNTED = 12
NOT_OWNER = 13
BAD_LINE = 14
UNKNOWN_CODE = 15
PRIVATE_CODE = 16
TOO_LONG = 17
BAD_BOOK = 18
TWINS = 19
NOT_LISTED = 20
# Document 02, Three.
OUT_OF_ORDER = 21


def first_refusal(*tests):
    """The number of the first test that applies, in the order written; 0 if none does."""
    for number, applies in tests:
        if applies():
            return number
    return ACCEPTED
