#!/usr/bin/env python3
"""Writes a task at a limit to standard output: limits.py NAME

In each task A has edits, B has others, and the candidate has both, so that none is one-sided.

names         200 names, each of which is added to the next
nodes         20,000 nodes in the candidate: sums of sums, going round ten names
holes         190 holes, each edited by one side
all           200 names, 190 holes, and 20,000 nodes in the candidate
chain         200 names and 20,000 nodes: a long sum, which each of 197 other names takes up
wide          200 names, of which 158 are assigned a sum of 63 numbers
loop          200 names, each of which a loop with two holes changes
arrays        200 names, of which 99 arrays are written in a loop with two holes
plan          a plan of 200,000 nodes and goals: ifs that A and the candidate write differently
plan_above    one node more
deep          1,000 branching nodes one under another: ifs round holes, one behind another
deep_above    one if more
facts         a plan of 9,996,224 facts: 88 loops round a hole, one behind another, and 384 others
facts_above   one loop more, 10,001,860 facts
"""
import sys

NODES = 20000


def task(names, outputs, shared, fillings, arrays=()):
    """Lines of a task. A filling is what the base has in a hole, who edits it, and the edit."""
    yield "var %s;" % ", ".join(names)
    if arrays:
        yield "array %s;" % ", ".join(arrays)
    yield "output %s;" % ", ".join(outputs)
    yield "shared {"
    for line in shared:
        yield "  " + line
    yield "}"
    for name, side in (("base", ""), ("variant_a", "A"), ("variant_b", "B"), ("candidate", "AB")):
        yield name + " {"
        for hole, filling in enumerate(fillings, 1):
            yield "  ?%d { %s }" % (hole, filling(side))
        yield "}"


def edit(side, edited, base=""):
    """A filling of the base, and of the side that edits it."""
    return lambda sides: edited if side in sides else base


def numbered(letter, count):
    return ["%s%d" % (letter, k) for k in range(count)]


def names():
    x = numbered("x", 200)
    sums = ["%s = %s + %s;" % (b, b, a) for a, b in zip(x, x[1:])]
    fillings = [edit("A", "x99 = x99 + 1;"), edit("B", "x0 = x0 + 2;")]
    return task(x, x, sums[:98] + ["?1;"] + sums[98:] + ["?2;"], fillings)


def nodes():
    x = numbered("x", 10)
    # a sum has 4 nodes, and so has an edit
    sums = ["%s = %s + %s;" % (x[k % 10], x[k % 10], x[(k - 1) % 10] if k % 10 else 1)
            for k in range((NODES - 8) // 4)]
    fillings = [edit("A", "x0 = x0 + 1;"), edit("B", "z = z + 2;")]
    return task(x + ["z"], x + ["z"], ["?1;"] + sums + ["?2;"], fillings)


def chain():
    x = numbered("x", 199)
    users = ["%s = %s + x0;" % (a, a) for a in x[1:-1]]
    long = ["x0 = x0 + n;"] * ((NODES - 4 * len(users) - 6) // 4)
    fillings = [edit("A", "x0 = x0 + 1;"), edit("B", "%s = n;" % x[-1])]
    return task(["n"] + x, x, ["?1;"] + long + users + ["?2;"], fillings)


def holes():
    x = numbered("x", 190)
    fillings = [edit("AB"[k % 2], "%s = n + %d;" % (a, k + 1), "%s = n;" % a)
                for k, a in enumerate(x)]
    return task(["n"] + x, x, ["?%d;" % (k + 1) for k in range(190)], fillings)


def all_at_once():
    x = numbered("x", 199)
    fillings = [edit("AB"[k % 2], "%s = %s + %d;" % (x[k], x[k], k + 1)) for k in range(190)]
    sums = (NODES - 190 * 4) // 4
    shared = []
    for k in range(190):
        shared.append("?%d;" % (k + 1))
        for _ in range(sums // 190 + (k < sums % 190)):
            shared.append("%s = %s + n;" % (x[k], x[k]))
    return task(["n"] + x, x, shared, fillings)


def wide():
    x = numbered("x", 158)
    y = numbered("y", 41)
    # an assignment of 63 numbers has 1 + 63 + 62 nodes, and is as deep as one may be
    shared = ["%s = %s;" % (a, " + ".join(y[(k + n) % 41] for n in range(63)))
              for k, a in enumerate(x)]
    fillings = [edit("A", "y0 = y0 + 1;"), edit("B", "z = z + 2;")]
    return task(x + y + ["z"], x + ["z"], ["?1;"] + shared + ["?2;"], fillings)


def loop():
    x = numbered("x", 198)
    body = ["  %s = %s + i;" % (a, a) for a in x]
    fillings = [edit("A", "x0 = x0 + 1;"), edit("B", "x1 = x1 + 2;")]
    shared = ["i = 0;", "while (i < n) {", "  ?1;", "  ?2;"] + body + ["  i = i + 1;", "}"]
    return task(["i", "n"] + x, x, shared, fillings)


def arrays():
    source, target = numbered("from", 99), numbered("to", 99)
    body = ["  %s[i] = %s[i];" % (b, a) for a, b in zip(source, target)]
    fillings = [edit("A", "to0[i] = from0[i] + 1;"), edit("B", "to1[i] = from1[i] + 2;")]
    shared = ["i = 0;", "while (i < n) {"] + body + ["  ?1;", "  ?2;", "  i = i + 1;", "}"]
    return task(["i", "n"], target, shared, fillings, source + target)


def plan(more):
    least, p, q = numbered("least", 5), numbered("p", 5), numbered("q", 5)
    triples = list(zip(least, p, q))
    base = " ".join("%s = %s + 1;" % (l, a) for l, a, b in triples)
    ifs = " ".join("if (%s < %s) { %s = %s + 2; } else { %s = %s; }" % (a, b, l, a, l, b)
                   for l, a, b in triples)
    turned = " ".join("if (%s <= %s) { %s = %s; } else { %s = 2 + %s; }" % (b, a, l, b, l, a)
                      for l, a, b in triples)
    # the ifs have 1,024 ends, each with 185 goals; A's skips fill the plan up
    skips = " ".join(["skip;"] * (6435 + more))
    fillings = [lambda sides: {"A": ifs, "AB": turned}.get(sides, base),
                lambda sides: "z = 2;" if "B" in sides else skips if sides else ""]
    return task(least + p + q + ["z"], least + ["z"], ["?1;", "?2;"], fillings)


def deep(more):
    # an if round a hole is a block, and the four programs fork in it: 4 branching nodes more
    count = 996 + more
    fillings = [edit("A", "x = 1;"), edit("B", "y = 1;")] + [edit("A", "")] * (count - 2)
    shared = ["if (true) { ?%d; } else { }" % (k + 1) for k in range(count)]
    return task(["x", "y"], ["x", "y"], shared, fillings)


def facts(more):
    x = numbered("x", 9)
    base = "%s x0 = x0 + step;" % " ".join("%s = %s;" % (b, a) for a, b in zip(x, x[1:]))
    fillings = [lambda sides: base] * 88 + [edit("A", "y = step;"), edit("B", "z = step;")]
    # loops without a hole have a fact for each program behind them
    shared = ["while (false) { }"] * (384 + more)
    for k in range(88):
        shared.append("while (x0 < n) { ?%d; }" % (k + 1))
    return task(x + ["n", "step", "y", "z"], ["y", "z"], shared + ["?89;", "?90;"], fillings)


TASKS = {"names": names, "nodes": nodes, "holes": holes, "all": all_at_once, "chain": chain,
         "wide": wide, "loop": loop, "arrays": arrays,
         "plan": lambda: plan(0), "plan_above": lambda: plan(1),
         "deep": lambda: deep(0), "deep_above": lambda: deep(1),
         "facts": lambda: facts(0), "facts_above": lambda: facts(1)}
if __name__ == "__main__":
    print("\n".join(TASKS[sys.argv[1]]()))
