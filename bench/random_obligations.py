#!/usr/bin/env python3
"""Random obligations of at most six comparisons, put to the walk through the program of worked cases.

random_obligations.py PROGRAM [COUNT [SEED]]

Each closed one comes with a certificate that the program has checked: it prints `closed`. Each one that
stays open with linear facts alone gets values here, fractions, that satisfy all facts of its leaf. It
shows how many were closed, open, out of steps and out of range, and ends with 1 where something is wrong.
"""
import random
import subprocess
import sys
from fractions import Fraction

STEPS = 2000


class Terms:
    """The terms of a table in the order of their numbers."""

    def __init__(self, draw):
        self.draw = draw
        self.list = []
        self.lines = []

    def put(self, *term):
        if term in self.list:
            number = self.list.index(term)
        else:
            number = len(self.list)
            self.list.append(term)
        self.lines.append("t " + " ".join(str(word) for word in term))
        return number


def made(draw):
    """A table, the lines of one obligation, and its terms."""
    terms = Terms(draw)
    names = [terms.put("start", name) for name in range(3)]
    array = terms.put("start", 3)
    numbers = list(names)
    with_arrays = draw.random() < 0.4
    for _ in range(draw.randrange(5)):
        kind = draw.choice(["lit", "add", "sub", "neg", "mul", "read", "write"] if with_arrays
                           else ["lit", "lit", "add", "add", "sub", "neg"] + ["mul"] * (draw.random() < 0.3))
        one, two = draw.choice(numbers), draw.choice(numbers)
        if kind == "lit":
            numbers.append(terms.put("lit", draw.randrange(-2, 4)))
        elif kind == "neg":
            numbers.append(terms.put("neg", one))
        elif kind == "read":
            numbers.append(terms.put("read", array, one))
        elif kind == "write":
            array = terms.put("write", array, one, two)
            numbers.append(terms.put("read", array, draw.choice(numbers)))
        else:
            numbers.append(terms.put(kind, one, two))

    def comparison():
        return "%s %d %d" % (draw.choice(["eq", "ne", "le", "lt"]), draw.choice(numbers), draw.choice(numbers))

    lines = []
    left = draw.randrange(1, 6)
    while left > 0:
        if left > 1 and draw.random() < 0.3:
            lines.append("fact %s %s, %s" % (draw.choice(["and", "or"]), comparison(), comparison()))
            left -= 2
        else:
            lines.append("fact " + comparison())
            left -= 1
    target = comparison()
    return terms, lines, target


def linear(terms, number):
    """The linear form of a term over names, or none where it has a product or an array."""
    term = terms.list[number]
    if term[0] == "lit":
        return {None: Fraction(term[1])}
    if term[0] == "start":
        return {term[1]: Fraction(1)} if term[1] < 3 else None
    if term[0] == "neg":
        part = linear(terms, term[1])
        return part and scaled(part, -1)
    if term[0] in ("add", "sub"):
        one, two = linear(terms, term[1]), linear(terms, term[2])
        if one is None or two is None:
            return None
        return added(one, scaled(two, 1 if term[0] == "add" else -1))
    if term[0] == "mul":
        one, two = linear(terms, term[1]), linear(terms, term[2])
        if one is None or two is None:
            return None
        for first, second in ((one, two), (two, one)):
            if all(key is None for key in first):
                return scaled(second, first.get(None, 0))
    return None


def scaled(form, factor):
    return {key: value * factor for key, value in form.items()}


def added(one, two):
    form = dict(one)
    for key, value in two.items():
        form[key] = form.get(key, 0) + value
    return form


def comparisons(text):
    """The comparisons that a leaf has as facts of their own; an `and` and an `or` stand for their parts."""
    found = []
    for fact in text.split(";")[1:]:
        words = fact.split()
        if words[0] in ("eq", "ne", "le", "lt"):
            found.append((words[0], int(words[1]), int(words[2])))
    return found


def rows_of(terms, facts):
    """Forms that are at most 0, of the comparisons; none where one isn't linear. A contrary has no row."""
    rows = []
    for op, left, right in facts:
        if terms.list[left][0] in ("start", "write") and sorts(terms, left) == "a":
            return None
        one, two = linear(terms, left), linear(terms, right)
        if one is None or two is None:
            return None
        form = added(one, scaled(two, -1))
        if op == "le":
            rows.append(form)
        elif op == "lt":
            rows.append(added(form, {None: Fraction(1)}))
        elif op == "eq":
            rows.append(form)
            rows.append(scaled(form, -1))
    return rows


def sorts(terms, number):
    term = terms.list[number]
    return "a" if term[0] == "write" or term == ("start", 3) else "n"


def solved(rows):
    """Values of the names that make each row at most 0, by taking one name out after the other."""
    steps = []
    for name in range(3):
        below = [row for row in rows if row.get(name, 0) < 0]
        above = [row for row in rows if row.get(name, 0) > 0]
        rest = [row for row in rows if row.get(name, 0) == 0]
        steps.append((name, below, above))
        for low in below:
            for high in above:
                rest.append(added(scaled(low, high[name]), scaled(high, -low[name])))
        rows = rest
    if any(row.get(None, 0) > 0 for row in rows):
        return None
    values = {}
    for name, below, above in reversed(steps):
        def bound(row):
            rest = sum(value * (1 if key is None else values[key]) for key, value in row.items() if key != name and value != 0)
            return -rest / row[name]
        lows, highs = [bound(row) for row in below], [bound(row) for row in above]
        values[name] = max(lows) if lows else min(highs) if highs else Fraction(0)
    return values


def holds(terms, values, fact):
    op, left, right = fact
    def value(number):
        return sum(part * (1 if key is None else values[key]) for key, part in linear(terms, number).items())
    one, two = value(left), value(right)
    return {"eq": one == two, "ne": one != two, "le": one <= two, "lt": one < two}[op]


def main():
    program = sys.argv[1]
    count = int(sys.argv[2]) if len(sys.argv) > 2 else 20000
    draw = random.Random(int(sys.argv[3]) if len(sys.argv) > 3 else 1)
    obligations = [made(draw) for _ in range(count)]
    text = []
    for terms, lines, target in obligations:
        text.append("table n n n a")
        text += terms.lines + lines
        text.append("solve %d %s" % (STEPS, target))
    printed = subprocess.run([program], input="\n".join(text) + "\n", stdout=subprocess.PIPE, text=True, check=True)
    answers, at = [], 0
    out = printed.stdout.splitlines()
    for terms, lines, target in obligations:
        at += 1 + len(terms.lines) + len(lines)
        answers.append(out[at])
        at += 1
    counts, wrong = {}, 0
    for (terms, lines, target), answer in zip(obligations, answers):
        word = answer.split()[0].rstrip(";")
        counts[word] = counts.get(word, 0) + 1
        if word not in ("closed", "open", "steps", "beyond"):
            wrong += 1
            print("wrong:", answer, lines, target)
        if word != "open":
            continue
        facts = comparisons(answer)
        rows = rows_of(terms, facts)
        if rows is None:
            continue
        counts["open and linear"] = counts.get("open and linear", 0) + 1
        values = solved(rows)
        if values is None or not all(holds(terms, values, fact) for fact in facts):
            wrong += 1
            print("no values:", answer, terms.list)
    for word in sorted(counts):
        print(word, counts[word])
    sys.exit(1 if wrong else 0)


main()
