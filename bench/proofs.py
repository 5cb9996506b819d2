#!/usr/bin/env python3
"""Writes a task and a proof file for it: proofs.py KIND SIZE FOLDER makes FOLDER/task and FOLDER/proof.

  lines      one goal with SIZE lines refl, sym and trans
  forks      SIZE forks in a row (at most 1000), one branch of each closed by dead
  loops      SIZE loops, one after the other, each with its 15 turns, under 200 declared names
  tree       a balanced tree of splits, SIZE deep, with 60 lines at each leaf
  steps      SIZE statements (at most 9990), stepped through one node a line in four copies
  long       one line of SIZE bytes
  nested     SIZE loops in each other (at most 60) under one abs
  shared     a term that is SIZE times the sum of itself (at most 120), under lin and in a kept formula
  branches   64 goals, the certificate of each with SIZE lines (at most 4096)
  under      SIZE facts that nobody names, and under them 128 chains of 900 splits, each of which is used

All but `long` pass."""
import os
import sys

NOTHING = 'base { } variant_a { } variant_b { } candidate { }\n'


def goals(fact):
    """The certificates of the three goals of an output whose value is the same in all copies, where
    `fact` facts stand before the negated goal."""
    n = fact
    yield 'both %d' % n
    yield 'close %d' % (n + 1)
    yield 'both %d' % n
    yield 'close %d' % (n + 1)
    yield 'both %d' % n
    yield 'both %d' % (n + 2)
    yield 'close %d' % (n + 4)


def lines(size):
    def proof():
        yield 'end'
        yield 'both 0'
        yield 't start 0'
        fact = 2
        while fact < size + 2:
            if fact % 3 == 0:
                yield 'refl 0'
            elif fact % 3 == 1:
                yield 'sym %d' % (fact - 1)
            else:
                yield 'trans %d %d' % (fact - 2, fact - 1) if fact > 4 else 'refl 0'
            fact += 1
        yield from list(goals(0))[1:]
    return 'var x; output x; shared { } ' + NOTHING, proof()


def forks(size):
    code = 'if (0 < 0) { skip; } else { skip; } ' * size
    task = 'var x; output x; shared { ?1; } base { ?1 { %s} }' % code
    for name in ('variant_a', 'variant_b', 'candidate'):
        task += ' %s { ?1 { } }' % name

    def proof():
        for i in range(size):
            yield 'fork 0'
            yield 'dead'
            yield 'lin %d' % i
            yield 'close %d' % (i + 2)
            yield 'step 0'
        yield 'end'
        yield from goals(size)
    return task + '\n', proof()


def loops(size):
    names = ', '.join(['i', 'n', 'x'] + ['v%d' % k for k in range(197)])
    code = 'while (i < n) { i = i + 1; } ' * size
    task = 'var %s; output x; shared { %s} %s' % (names, code, NOTHING)

    def proof():
        yield 'p yes'
        for i in range(size):
            yield 'loop 15 0'
            for turn in range(1, 16):
                for copy in range(4):
                    if turn >> copy & 1:
                        yield 'step %d' % copy
                yield 'end'
        yield 'end'
        yield from goals(4 * size)
    return task, proof()


def tree(size):
    def below(depth, fact):
        if depth == 0:
            for _ in range(60):
                yield 'refl 0'
            yield 'close 1'
        else:
            yield 'cases 0 1'
            yield from below(depth - 1, fact + 1)
            yield from below(depth - 1, fact + 1)

    def proof():
        yield 'end'
        yield 't start 0'
        yield 't lit 7'
        yield 'both 0'
        yield from below(size, 3)
        yield from list(goals(0))[2:]
    return 'var x; output x; shared { } ' + NOTHING, proof()


def steps(size):
    task = 'var x; output x; shared { %s} %s' % ('x = 1; ' * size, NOTHING)

    def proof():
        for copy in range(4):
            for _ in range(size):
                yield 'step %d' % copy
        yield 'end'
        yield from goals(0)
    return task, proof()


def long(size):
    return 'var x; output x; shared { } ' + NOTHING, iter(['e' * size])


def nested(size):
    code = 'x = x + 1;'
    for _ in range(size):
        code = 'while (x < y) { %s }' % code
    task = 'var x, y; output x; shared { %s } %s' % (code, NOTHING)

    def proof():
        for copy in range(4):
            yield 'abs %d 1' % copy
        yield 'end'
        yield from goals(4)
    return task, proof()


def shared(size):
    def proof():
        yield 't slot 0 0'
        for k in range(size):
            yield 't add %d %d' % (k, k)
        yield 'p eq %d %d' % (size, size)
        yield 'block 0 0 0 0 0'
        # the inner node's target is the equation, and the branch denies it
        yield 'end'
        yield 'close 0'
        yield 'end'
        yield 'both 1'
        yield 'lin 0'
        yield 'close 2'
        yield 'both 1'
        yield 'close 2'
        yield 'both 1'
        yield 'both 3'
        yield 'close 5'
    return 'var x; output x; shared { } ' + NOTHING, proof()


def branches(size):
    names = ', '.join('x%d' % k for k in range(22))
    task = 'var %s; output %s; shared { } %s' % (names, names, NOTHING)

    def proof():
        yield 'end'
        yield 't start 0'
        for goal in range(66):
            start = list(goals(0))
            own = start[4:] if goal % 3 == 2 else start[:2]
            for _ in range(size - len(own)) if goal < 64 else ():
                yield 'refl 0'
            shift = size - len(own) if goal < 64 else 0
            for line in own:
                word, number = line.split(' ')
                yield '%s %d' % (word, int(number) + (shift if int(number) > 0 else 0))
    return task, proof()


def under(size):
    def chain(fact, unequal):
        for _ in range(900):
            yield 'cases 0 0'
            yield 'clash %d %d' % (fact, unequal)
            unequal = fact
            fact += 1
        yield 'close %d' % unequal

    def below(depth, fact):
        if depth == 0:
            yield from chain(fact, 1)
        else:
            yield 'cases 0 0'
            yield from below(depth - 1, fact + 1)
            yield from below(depth - 1, fact + 1)

    def proof():
        yield 'end'
        yield 't start 0'
        yield 'both 0'
        for _ in range(size):
            yield 'refl 0'
        yield from below(7, size + 3)
        yield from list(goals(0))[2:]
    return 'var x; output x; shared { } ' + NOTHING, proof()


KINDS = {it.__name__: it for it in
         (lines, forks, loops, tree, steps, long, nested, shared, branches, under)}


def main():
    kind, size, folder = sys.argv[1:]
    task, proof = KINDS[kind](int(size))
    os.makedirs(folder, exist_ok=True)
    with open(os.path.join(folder, 'task'), 'w') as out:
        out.write(task)
    with open(os.path.join(folder, 'proof'), 'w') as out:
        out.write('safemerge-proof 1\n')
        for line in proof:
            out.write(line + '\n')


if __name__ == '__main__':
    main()
