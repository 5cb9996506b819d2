#!/usr/bin/env python3
"""Writes an obligation of a size for the program of worked cases, and the same in SMT-LIB for other solvers.

obligations.py KIND FACTS DIRECTORY

`arrays`: arrays and indices that are equal one after the other, and an element of the first that is one of the last.
`differences`: each number is at most the next one, so the first is at most the last.
`grid`: each place of a square is the one above it and a step down, and the one on its left and a step to the right.
`splits`: of as many pairs the first part can't be, and the last pair has no second part that can; so the branches of the
pairs are split one below another.
`merges`: no facts, but as many goals of merges without loops, each over terms of its own: six linear assignments, of
which A edits one and B another, and what the condition asks of a name at the end.
The directory gets `lines` and `obligation.smt2`.
"""
import random
import sys


class Obligation:
    """Terms and facts, as lines of the program and as SMT-LIB."""

    def __init__(self, arrays, numbers):
        self.lines = ["table " + " ".join(["a"] * arrays + ["n"] * numbers)]
        self.smt = ["(set-logic ALL)"]
        self.count = 0
        self.words = []
        for name in range(arrays + numbers):
            sort = "(Array Int Int)" if name < arrays else "Int"
            self.smt.append("(declare-const x%d %s)" % (name, sort))
            self.put("start %d" % name, "x%d" % name)

    def put(self, line, word):
        self.lines.append("t " + line)
        self.words.append(word)
        self.count += 1
        return self.count - 1

    def add(self, t, u):
        return self.put("add %d %d" % (t, u), "(+ %s %s)" % (self.words[t], self.words[u]))

    def times(self, t, u):
        return self.put("mul %d %d" % (t, u), "(* %s %s)" % (self.words[t], self.words[u]))

    def number(self, value):
        return self.put("lit %d" % value, str(value))

    def read(self, a, i):
        return self.put("read %d %d" % (a, i), "(select %s %s)" % (self.words[a], self.words[i]))

    def smt_of(self, op, t, u):
        word = {"eq": "=", "ne": "distinct", "le": "<=", "lt": "<"}[op]
        return "(%s %s %s)" % (word, self.words[t], self.words[u])

    def fact(self, op, t, u):
        self.lines.append("fact %s %d %d" % (op, t, u))
        self.smt.append("(assert %s)" % self.smt_of(op, t, u))

    def either(self, first, second):
        self.lines.append("fact or %s %d %d, %s %d %d" % (first + second))
        self.smt.append("(assert (or %s %s))" % (self.smt_of(*first), self.smt_of(*second)))

    def target(self, op, t, u):
        self.lines.append("solve 100000000 %s %d %d" % (op, t, u))
        self.smt.append("(assert (not %s))" % self.smt_of(op, t, u))
        self.smt.append("(check-sat)")


def arrays(facts):
    half = facts // 2
    o = Obligation(half + 1, half + 1)
    first = o.read(0, half + 1)
    last = o.read(half, 2 * half + 1)
    for k in range(half):
        o.fact("eq", k, k + 1)
        o.fact("eq", half + 1 + k, half + 2 + k)
    o.target("eq", first, last)
    return o


def differences(facts):
    o = Obligation(0, facts + 1)
    for k in range(facts):
        o.fact("le", k, k + 1)
    o.target("le", 0, facts)
    return o


def grid(facts):
    side = max(1, int((facts / 2) ** 0.5))
    o = Obligation(0, (side + 1) * (side + 1) + 2)
    down, right = o.count - 2, o.count - 1

    def at(row, column):
        return row * (side + 1) + column

    for row in range(side + 1):
        for column in range(side + 1):
            if row < side:
                o.fact("eq", at(row + 1, column), o.add(at(row, column), down))
            if column < side:
                o.fact("eq", at(row, column + 1), o.add(at(row, column), right))
    times = o.number(side)
    whole = o.add(at(0, 0), o.add(o.times(times, down), o.times(times, right)))
    o.target("eq", at(side, side), whole)
    return o


def splits(facts):
    side = int(facts ** 0.5) + 1
    o = Obligation(0, 2 * side + 2)
    p, q = 2 * side, 2 * side + 1
    o.fact("ne", p, q)
    o.fact("le", p, q)
    for k in range(facts - 1):
        o.either(("eq", p, q), ("lt", k // side, side + k % side))
    o.either(("eq", p, q), ("lt", q, p))
    o.target("lt", 0, 0)
    return o


class Merge(Obligation):
    """The goals of a merge of linear assignments, which hold. The candidate writes its sums the other way round. Terms
    that are the same are put once."""

    NAMES, STATEMENTS = 4, 6

    def __init__(self, draw):
        self.known = {}
        super().__init__(0, self.NAMES)
        statements = [self.statement(draw) for _ in range(self.STATEMENTS)]
        at_a, at_b = draw.sample(range(self.STATEMENTS), 2)
        edit_a, edit_b = {at_a: self.statement(draw)}, {at_b: self.statement(draw)}
        ends = [self.end(statements, edits) for edits in ({}, edit_a, edit_b)]
        ends.append(self.end(statements, {**edit_a, **edit_b}, is_turned=True))
        self.goals = [goal for base, a, b, both in zip(*ends)
                      for goal in (((base, a), (both, a)), ((base, b), (both, b)), ((both, a), (both, b)))
                      if any(one[1] == other[1] for one, other in goal)]

    def put(self, line, word):
        if line not in self.known:
            self.known[line] = super().put(line, word)
        return self.known[line]

    def statement(self, draw):
        target, one, other = (draw.randrange(self.NAMES) for _ in range(3))
        return target, one, other, draw.randint(1, 9), draw.randint(0, 9)

    def end(self, statements, edits, is_turned=False):
        """What each name has at the end: its term, and its linear form."""
        store = [(name, tuple(int(k == name) for k in range(self.NAMES)) + (0,)) for name in range(self.NAMES)]
        for at, statement in enumerate(statements):
            target, one, other, times, more = edits.get(at, statement)
            (first, form), (second, rest) = store[one], store[other]
            parts = [self.times(self.number(times), first), second, self.number(more)]
            if is_turned:
                parts.reverse()
            form = tuple(times * x + y for x, y in zip(form, rest))
            store[target] = self.add(self.add(parts[0], parts[1]), parts[2]), form[:-1] + (form[-1] + more,)
        return store


def merges(count):
    draw = random.Random(count)
    lines, smt = [], ["(set-logic ALL)"]
    while count > 0:
        merge = Merge(draw)
        for goal in merge.goals[:count]:
            parts = [("eq", one[0], other[0]) for one, other in goal]
            lines += merge.lines + ["solve 100000000 or %s %d %d %s %d %d" % (parts[0] + parts[1])]
            smt += ["(push)"] + merge.smt[1:]
            smt += ["(assert (not (or %s %s)))" % tuple(merge.smt_of(*part) for part in parts), "(check-sat)", "(pop)"]
        count -= len(merge.goals[:count])
    return lines, smt


def main():
    kind, facts, place = sys.argv[1], int(sys.argv[2]), sys.argv[3]
    if kind == "merges":
        own, smt = merges(facts)
    else:
        o = {"arrays": arrays, "differences": differences, "grid": grid, "splits": splits}[kind](facts)
        own, smt = o.lines, o.smt
    for name, lines in (("lines", own), ("obligation.smt2", smt)):
        with open("%s/%s" % (place, name), "w", encoding="utf-8") as file:
            file.write("\n".join(lines) + "\n")


main()
