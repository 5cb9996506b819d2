"""Merges that git takes without a conflict of text, by what is answered on them."""
from typing import NamedTuple


class Merge(NamedTuple):
    """Three versions of one program."""

    base: str
    ours: str
    theirs: str


FRONT = "var size, limit, large, pairs, tables;\noutput limit, large;\n"


def merge(base: str, ours: str, theirs: str, front: str = FRONT) -> Merge:
    """What stands before a line that nobody edits is ours, and what is behind it theirs."""
    text = front + "\n%s\nlarge = 0;\n%s\n"
    return Merge(text % (base, ""), text % (ours, ""), text % (base, theirs))


# A raises the limit, and B doubles something else.
ACCEPTED = merge("limit = 100;", "limit = 200;", "large = size + size;")

# What git makes of it.
MERGED = ACCEPTED.ours + "large = size + size;\n"

# B reads the limit; from any start its value is another than B's.
CONFLICT = merge("limit = 100;", "limit = 200;", "large = limit;")

# B compares with the limit, so sizes from 101 to 200 show it. No trial has one.
DRAWN = merge("limit = 100;", "limit = 200;", "if (size > limit) { large = 1; } else { }")

# Twice a number is never twice another and 1, and the program doesn't find that.
UNKNOWN = merge("limit = 100;", "limit = 200;",
                "if (pairs + pairs == tables + tables + 1) { large = limit; } else { }")

# Two edits of one line.
TEXT = Merge(*(FRONT + "limit = %d;\n" % limit for limit in (1, 2, 3)))

# No start meets what is assumed.
VACUOUS = merge("limit = 100;", "limit = 200;", "large = limit;",
                front=FRONT + "assume size > 100 && size < 90;\n")

# An assumption that starts meet, but none of the trials.
RARE = merge("limit = 100;", "limit = 200;", "large = size;",
             front=FRONT + "assume size > 100;\n")
