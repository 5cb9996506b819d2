#!/usr/bin/env python3
"""Random small merges, put to `check`, `verify` and `replay`, and judged by an interpreter.

random_tasks.py PROGRAM FOLDER [COUNT [SEED [OPTION ..]]]

The tasks are drawn by task_drawing.py, and task_trees.py has the interpreter. Each `Accepted` has
a proof that `verify` accepts, and holds from 2,000 inputs; of 5 of them `replay` has to say what
the interpreter says. Each `Conflict` is the first of the 256 trials that violates, or with the
OPTION --deeper of `check` an input beyond them where none does, and `replay` of the printed input
shows the same. No other answer leaves a file. Of each `Unknown Open` it is
counted what its edits have to do with, and whether it holds from all inputs that were tried.

FOLDER gets the tasks with wrong answers, and those of each `Unknown Open` that holds.
Ends with 1 where something is wrong.
"""
import os
import random
import resource
import signal
import subprocess
import sys
import tempfile

from task_drawing import made, stores_of
from task_trees import TURNS, first_trial, has, input_text, parts, store_of

INPUTS = 2000
REPLAYED = 5
SECONDS = 10
LATE = "none in %d seconds of a processor" % SECONDS


def limited():
    resource.setrlimit(resource.RLIMIT_CPU, (SECONDS, SECONDS + 1))


class Asked:
    """The program's answers to one task in a folder, and what is wrong with them."""

    def __init__(self, program, options, place, task):
        self.program, self.options, self.task = program, options, task
        self.file, self.proof = os.path.join(place, "task"), os.path.join(place, "found")
        with open(self.file, "w", encoding="utf-8") as out:
            out.write(task.text())
        if os.path.exists(self.proof):
            os.remove(self.proof)
        self.faults = []
        self.confirmed = 0

    def call(self, words, text=""):
        done = subprocess.run([self.program] + words, input=text, stdout=subprocess.PIPE, text=True,
                              check=False, preexec_fn=limited)
        return done.returncode, done.stdout.splitlines()

    def want(self, holds, fault):
        if not holds:
            self.faults.append(fault)

    def check(self):
        status, lines = self.call(["check", self.file, self.proof, "--turns", str(TURNS)] + self.options)
        if status == -signal.SIGXCPU:
            return LATE, []
        first = (lines or [""])[0].split()
        word = " ".join(first[:2]) if first[:1] == ["Unknown"] else (first or ["nothing"])[0]
        wanted = {"Accepted": 0, "Conflict": 1}.get(word, 2)
        self.want(status == wanted, "status %d with %s" % (status, word))
        written = os.path.exists(self.proof)
        self.want(written == (word == "Accepted"), "a file, or none, with " + word)
        return word, lines

    def replay(self, text):
        return self.call(["replay", self.file, "/dev/stdin", "--turns", str(TURNS)], text)[1]

    def judged(self, stores):
        """What the interpreter says of inputs, of which a few are replayed: whether all hold."""
        verdicts = [self.task.verdict(store) for store in stores]
        holds = not any(verdict.startswith("Conflict") for verdict in verdicts)
        return holds, verdicts

    def replayed(self, stores, verdicts):
        for k in range(0, len(stores), max(1, len(stores) // REPLAYED)):
            line = (self.replay(input_text(self.task, stores[k])) or [""])[0]
            # the interpreter doesn't say what is past 128 bits, or only at products
            same = line == verdicts[k] or line.startswith("Beyond")
            self.want(same, "replay says %s, the interpreter %s" % (line, verdicts[k]))
            self.confirmed += same

    def conflict(self, lines):
        words = lines[0].split()
        found, text = " ".join(["Conflict"] + words[3:]), lines[1][len("input "):]
        self.want(self.replay(text) == [found], "a conflict that replay doesn't confirm")
        self.want(self.task.verdict(store_of(text)) == found, "a conflict that isn't one")
        first, number = first_trial(self.task), int(words[2])
        beyond = first is None and number >= 256 and "--deeper" in self.options
        self.want(first == number or beyond, "another trial is the first")

    def accepted(self, stores):
        answer = self.call(["verify", self.file, self.proof])
        self.want(answer == (0, ["Accepted"]), "a proof that doesn't pass: %s" % (answer,))
        holds, verdicts = self.judged(stores)
        self.want(holds, "Accepted, and an input violates")
        self.replayed(stores, verdicts)
        return verdicts.count("Holds")


def cause_of(task):
    """What the holes that are edited have to do with."""
    edited = [k for k in task.lists[0] if len({filling[k] for filling in task.lists}) > 1]
    fillings = tuple(filling[k] for filling in task.lists for k in edited)
    looped = any(part[0] == "while" and has(part, "hole") for part in parts(task.shared) if part)
    words = ["loop round a hole"] * looped + ["loop in an edit"] * has(fillings, "while")
    words += ["guard"] * (has(fillings, "if") or has(task.shared, "if"))
    words += ["array"] * has(fillings, "read", "put") + ["product"] * has(fillings, "*")
    holes = [[filling[k] for filling in task.lists] for k in edited]
    both = any(o not in (a, b) for o, a, b, _ in holes)
    other = any(m not in (o, a, b, a + b) for o, a, b, m in holes)
    words += ["both edit one hole"] * both + ["candidate in other words"] * other
    return ", ".join(words) or "none of these"


class Counts:
    """How often each answer came, and what the undecided tasks have to do with."""

    def __init__(self, folder):
        self.folder = folder
        self.answers, self.causes = {}, {}
        self.wrong = self.inputs = self.ended = self.replays = self.sided = 0

    def add(self, word):
        self.answers[word] = self.answers.get(word, 0) + 1

    def keep(self, name, text):
        with open(os.path.join(self.folder, name + ".task"), "w", encoding="utf-8") as out:
            out.write(text)

    def fault(self, number, asked):
        for text in asked.faults:
            print("wrong: task %d: %s" % (number, text), flush=True)
        if asked.faults:
            self.wrong += 1
            self.keep("wrong_%d" % number, asked.task.text())

    def undecided(self, number, task, line, holds):
        cause = cause_of(task)
        row = self.causes.setdefault(cause, [0, 0])
        row[0 if holds else 1] += 1
        if holds:
            self.keep("open_%d" % number, "# %s\n# %s\n%s" % (cause, line, task.text()))

    def show(self, count):
        print("%-40s %6d" % ("tasks", count))
        for word in sorted(self.answers):
            print("  %-38s %6d" % (word, self.answers[word]))
        print("%-40s %6d" % ("Accepted by one side alone", self.sided))
        print("%-40s %6d" % ("inputs tried of accepted tasks", self.inputs))
        print("%-40s %6d" % ("  from which all four end", self.ended))
        print("%-40s %6d" % ("  confirmed by replay", self.replays))
        print("%-40s %6d" % ("wrong", self.wrong))
        print("\n%6s %8s  Unknown Open: its edits have" % ("hold", "violate"))
        rows = sorted(self.causes.items(), key=lambda row: (-row[1][0], row[0]))
        for cause, (hold, violate) in rows:
            print("%6d %8d  %s" % (hold, violate, cause))
        hold, violate = (sum(row[k] for _, row in rows) for k in (0, 1))
        print("%6d %8d  all" % (hold, violate))


def met(task, stores, start):
    """The inputs of a task: those that meet what it assumes, from a place on."""
    turned = stores[start:] + stores[:start]
    if not task.meets:
        return turned[:INPUTS]
    found = [store for store in turned if task.meets(*store)]
    return found[:INPUTS]


def put(asked, counts, number, stores):
    """Asks and judges one task."""
    task = asked.task
    word, lines = asked.check()
    counts.add(word)
    if task.one_sided():
        asked.want(word == "Accepted", "one side alone, and " + word)
        counts.sided += 1
    if word == "Conflict":
        asked.conflict(lines)
        return
    if word != LATE:
        asked.want(first_trial(task) is None, "a trial violates, and the answer is " + word)
    if word == "Accepted":
        counts.ended += asked.accepted(stores)
        counts.inputs += len(stores)
        counts.replays += asked.confirmed
    elif word == "Unknown Open":
        counts.undecided(number, task, lines[0], asked.judged(stores)[0])


def main():
    program, folder = sys.argv[1], sys.argv[2]
    count = int(sys.argv[3]) if len(sys.argv) > 3 else 5000
    draw = random.Random(int(sys.argv[4]) if len(sys.argv) > 4 else 1)
    stores = stores_of(draw, 5 * INPUTS)
    counts = Counts(folder)
    with tempfile.TemporaryDirectory() as place:
        for number in range(count):
            asked = Asked(program, sys.argv[5:], place, made(draw))
            put(asked, counts, number, met(asked.task, stores, draw.randrange(len(stores))))
            counts.fault(number, asked)
            if number % 500 == 499:
                print("%d of %d tasks" % (number + 1, count), file=sys.stderr, flush=True)
    counts.show(count)
    sys.exit(1 if counts.wrong else 0)


main()
