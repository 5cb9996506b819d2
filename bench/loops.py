#!/usr/bin/env python3
"""Writes a task of a size to standard output: loops.py HOLES

One loop goes round the holes. Hole k copies an array of its own, cell by cell, to an output of its
own. A adds a number in the holes 0, 2, .., and B adds the index in the holes 1, 3, ..; the
candidate has both."""
import sys


def filling(hole, edited):
    source, target = "from%d[i]" % hole, "to%d[i]" % hole
    if not edited:
        return "%s = %s;" % (target, source)
    return "%s = %s + %s;" % (target, source, "i" if hole % 2 else hole + 1)


def lines(holes):
    yield "var i, n;"
    yield "array %s;" % ", ".join("from%d, to%d" % (hole, hole) for hole in range(holes))
    yield "output %s;" % ", ".join("to%d" % hole for hole in range(holes))
    yield "shared {"
    yield "  i = 0;"
    yield "  while (i < n) {"
    for hole in range(holes):
        yield "    ?%d;" % (hole + 1)
    yield "    i = i + 1;"
    yield "  }"
    yield "}"
    edited = {"base": (), "variant_a": (0,), "variant_b": (1,), "candidate": (0, 1)}
    for name, edits in edited.items():
        yield name + " {"
        for hole in range(holes):
            yield "  ?%d { %s }" % (hole + 1, filling(hole, hole % 2 in edits))
        yield "}"


print("\n".join(lines(int(sys.argv[1]))))
