#!/usr/bin/env python3
"""Puts systems of linear forms to the exact decision, through the program of worked cases.

exact.py solvers [PROGRAM [SEED]]

  1,000 random systems of 3 to 6 variables and 4 to 12 forms, each form of 1 to 3 variables with
  coefficients up to 20, a quarter of them equations; 100 hard ones, which are the worked pair of
  strips, 49 other pairs of narrow strips, and 50 knapsacks of two equations; and 1,000 open ones,
  which are random but hold at a point of fractions, as do those that the walk leaves open. z3 and
  cvc5 get the same where they are installed. Each program gets all systems of a row in one
  process. Times are of the processor, the least of three runs, less that of a run with no system.
  All answers are compared, and each solution is put into its forms. A row has the systems that are
  answered in 1,000 steps, in 1,000,000 and not in 1,000, or not at all; of another solver `none`
  counts those to which it doesn't know an answer, or has none in 10 seconds.

exact.py points [PROGRAM [SEED [COUNT]]]

  100,000 random systems of up to 3 variables, each of which is bounded by two forms, within -20 to
  20. All points of the box are tried here, and it is compared whether there is one.

exact.py steps [PROGRAM]

  Systems that need 1,000,000 steps or nest deep: seconds of the processor, KiB of memory and of
  stack, where a stack may have 2 MiB.

It ends with 1 where an answer is wrong. Run it at the top, after `rt run` in crates/calls.
"""
import itertools
import os
import random
import resource
import shutil
import subprocess
import sys
import tempfile

STEPS = 1000000
PROGRAM = "crates/calls/out/calls"
# what each solver gets in front of the systems: none may take over 10 seconds for one of them
SOLVERS = {"z3": (["z3"], "(set-option :timeout 10000)\n"),
           "cvc5": (["cvc5", "--incremental", "--tlimit-per=10000"], "")}
WORDS = {"refuted": "no", "unsat": "no", "solution": "yes", "sat": "yes"}


# A system is a list of forms: a kind, parts of a coefficient and a variable, and a constant.

def line_of(system, steps=STEPS):
    """A system as the program reads it."""
    forms = [" ".join([kind] + ["%d*%d" % part for part in parts] + [str(constant)])
             for kind, parts, constant in system]
    return "decide %d" % steps + (" " + ", ".join(forms) if forms else "")


def smt_of(system):
    """A system in SMT-LIB."""
    def number(z):
        return str(z) if z >= 0 else "(- %d)" % -z

    lines = ["(push 1)"]
    for variable in variables_of(system):
        lines.append("(declare-const x%d Int)" % variable)
    for kind, parts, constant in system:
        words = ["(* %s x%d)" % (number(c), x) for c, x in parts] + [number(constant)]
        total = "(+ %s)" % " ".join(words) if len(words) > 1 else words[0]
        lines.append("(assert (%s %s 0))" % ("<=" if kind == "le" else "=", total))
    return "\n".join(lines + ["(check-sat)", "(pop 1)"])


def variables_of(system):
    return sorted({x for _, parts, _ in system for _, x in parts})


def is_solved_by(system, values):
    """Whether all forms hold at these values."""
    for kind, parts, constant in system:
        total = sum(c * values[x] for c, x in parts) + constant
        if total > 0 or kind == "eq" and total != 0:
            return False
    return True


def run(words, text):
    """What a program prints for a text, by lines, and its seconds of the processor."""
    with tempfile.TemporaryFile() as given:
        given.write(text.encode())
        given.seek(0)
        before = resource.getrusage(resource.RUSAGE_CHILDREN)
        done = subprocess.run(words, stdin=given, stdout=subprocess.PIPE, check=True)
        after = resource.getrusage(resource.RUSAGE_CHILDREN)
    seconds = after.ru_utime + after.ru_stime - before.ru_utime - before.ru_stime
    return done.stdout.decode().splitlines(), seconds


def own(program, systems, steps=STEPS):
    return run([program], "".join(line_of(it, steps) + "\n" for it in systems))


def other(name, systems):
    words, front = SOLVERS[name]
    with tempfile.NamedTemporaryFile("w", suffix=".smt2") as file:
        file.write("(set-logic QF_LIA)\n" + front + "".join(smt_of(it) + "\n" for it in systems))
        file.flush()
        return run(words + [file.name], "")


def verdict(system, said, wrong):
    """`yes`, `no` or `none`; a solution that isn't one goes to what is wrong."""
    word = said.split(" ", 1)[0]
    if word == "solution":
        values = {int(x): int(z) for x, z in (it.split("=") for it in said.split(" ")[1:])}
        if sorted(values) != variables_of(system) or not is_solved_by(system, values):
            wrong.append("no solution: %s: %s" % (line_of(system), said))
    return WORDS.get(word, "none")


# systems

def size(draw, greatest):
    return draw.choice((-1, 1)) * draw.randint(1, greatest)


def random_system(draw):
    count = draw.randint(3, 6)
    system = []
    for _ in range(draw.randint(4, 12)):
        those = sorted(draw.sample(range(count), draw.randint(1, 3)))
        kind = "eq" if draw.random() < 0.25 else "le"
        system.append((kind, [(size(draw, 20), x) for x in those], draw.randint(-50, 50)))
    return system


def open_system(draw):
    """A random system with a solution in fractions of one denominator."""
    count, q = draw.randint(3, 6), draw.randint(2, 6)
    point = [draw.randint(-60, 60) for _ in range(count)]
    system = []
    for _ in range(draw.randint(4, 12)):
        kind = "eq" if draw.random() < 0.25 else "le"
        while True:
            those = sorted(draw.sample(range(count), draw.randint(1, 3)))
            parts = [(size(draw, 20), x) for x in those]
            total = sum(c * point[x] for c, x in parts)
            if kind == "le" or total % q == 0:
                break
        system.append((kind, parts, -total // q - (kind == "le") * draw.randint(0, 5)))
    return system


def between(low, parts, high):
    """Forms that put a sum between two numbers."""
    return [("le", [(-c, x) for c, x in parts], low), ("le", parts, -high)]


def worked():
    return between(27, [(11, 0), (13, 1)], 45) + between(-10, [(7, 0), (-9, 1)], 4)


def strips(draw):
    """Two strips of the plane that cross, neither of which has a whole point on most lines."""
    system = []
    for sign in (1, -1):
        low = draw.randint(-60, 60)
        parts = [(draw.randint(5, 20), 0), (sign * draw.randint(5, 20), 1)]
        system += between(low, parts, low + draw.randint(0, 20))
    return system


def knapsack(draw):
    """Numbers of things of each sort, with their whole weight and their whole price."""
    count = draw.randint(3, 4)
    most = draw.randint(5, 30)
    system = []
    for _ in range(2):
        parts = [(draw.randint(5, 60), x) for x in range(count)]
        total = sum(c * draw.randint(0, most) for c, _ in parts)
        system.append(("eq", parts, -total))
    for x in range(count):
        system += between(0, [(1, x)], most)
    return system


def hard_systems(draw):
    return ([worked()] + [strips(draw) for _ in range(49)]
            + [knapsack(draw) for _ in range(50)])


def boxed_system(draw):
    """A system of up to 3 variables, and the box that bounds them."""
    count = draw.randint(1, 3)
    greatest = draw.choice((2, 5, 20))
    box = []
    for _ in range(count):
        low, high = sorted((draw.randint(-20, 20), draw.randint(-20, 20)))
        box.append((low, high) if draw.random() < 0.5 else (-20, 20))
    system = [form for x, (low, high) in enumerate(box) for form in between(low, [(1, x)], high)]
    for _ in range(draw.randint(1, 6)):
        those = sorted(draw.sample(range(count), draw.randint(1, count)))
        kind = "eq" if draw.random() < 0.3 else "le"
        # its sum is near 0 at a point of the box, so that many systems are nearly solved
        parts = [(size(draw, greatest), x) for x in those]
        near = sum(c * draw.randint(*box[x]) for c, x in parts)
        system.append((kind, parts, draw.randint(-3, 3) - near))
    draw.shuffle(system)
    return system, box


# modes

def least_seconds(once, systems):
    """The answers, and the least seconds of three runs less those of three without systems."""
    runs = [once(systems) for _ in range(3)]
    starts = [once([]) for _ in range(3)]
    return runs[0][0], max(0.0, min(it[1] for it in runs) - min(it[1] for it in starts))


def by_steps(program, systems):
    """The systems that are answered in so many steps and not in fewer, and those that aren't."""
    for steps in (1000, STEPS):
        said, _ = own(program, systems, steps)
        told = [it.split(" ", 1)[0] in WORDS for it in said]
        yield str(steps), [it for it, is_told in zip(systems, told) if is_told]
        systems = [it for it, is_told in zip(systems, told) if not is_told]
    yield "none", systems


def solvers(program, seed):
    draw = random.Random(seed)
    sets = [("random", [random_system(draw) for _ in range(1000)]), ("hard", hard_systems(draw)),
            ("open", [open_system(draw) for _ in range(1000)])]
    names = [it for it in SOLVERS if shutil.which(it)]
    wrong = []
    form = "%-8s %8s %7s %8s %9s" + " %9s %5s" * len(names)
    print(form % (("systems", "steps", "number", "refuted", "seconds")
                  + tuple(word for name in names for word in (name, "none"))))
    for name, systems in sets:
        for steps, those in by_steps(program, systems):
            said, seconds = least_seconds(lambda it: own(program, it), those)
            answers = [verdict(*it, wrong) for it in zip(those, said)]
            columns = [name, steps, len(those), answers.count("no"), "%.3f" % seconds]
            for solver in names:
                theirs, seconds = least_seconds(lambda it: other(solver, it), those)
                verdicts = [WORDS.get(it, "none") for it in theirs]
                if len(verdicts) != len(those):
                    wrong.append("%s answers %d of %d" % (solver, len(verdicts), len(those)))
                for system, one, two in zip(those, answers, verdicts):
                    if "none" not in (one, two) and one != two:
                        wrong.append("%s: %s, %s says %s" % (line_of(system), one, solver, two))
                columns += ["%.3f" % seconds, verdicts.count("none")]
            print(form % tuple(columns), flush=True)
    return wrong


def holding(cache, kind, coefficient, rest):
    """The numbers from -20 to 20, as bits, with which a form holds whose other parts give rest."""
    bits = 0
    for z in range(-20, 21):
        total = coefficient * z + rest
        if total == 0 or kind == "le" and total < 0:
            bits |= 1 << z + 20
    cache[kind, coefficient, rest] = bits
    return bits


def has_point(cache, system, box):
    """Whether a point of the box satisfies the forms: all values of the last variable at once."""
    last = len(box) - 1
    low, high = box[last]
    rows = []
    for kind, parts, constant in system:
        at = dict((x, c) for c, x in parts)
        rows.append((kind, at.get(last, 0), constant, [at.get(x, 0) for x in range(last)]))
    # equations and long forms come first, since they rule out the most
    rows.sort(key=lambda row: (row[0] != "eq", row[3].count(0)))
    for point in itertools.product(*(range(one, other + 1) for one, other in box[:last])):
        bits = (1 << high + 21) - (1 << low + 20)
        for kind, c, rest, front in rows:
            for a, z in zip(front, point):
                rest += a * z
            known = cache.get((kind, c, rest))
            bits &= holding(cache, kind, c, rest) if known is None else known
            if not bits:
                break
        else:
            return True
    return False


def points(program, seed, count):
    draw = random.Random(seed)
    drawn = [boxed_system(draw) for _ in range(count)]
    said, seconds = own(program, [system for system, _ in drawn])
    cache, wrong = {}, []
    counts = {"yes": 0, "no": 0, "none": 0}
    for (system, box), answer in zip(drawn, said):
        decided = verdict(system, answer, wrong)
        counts[decided] += 1
        tried = "yes" if has_point(cache, system, box) else "no"
        if decided not in (tried, "none"):
            wrong.append("%s: %s, and by the points %s" % (line_of(system), answer, tried))
    print("%d systems: %d solved, %d refuted, %d neither, %d different, in %.2f seconds"
          % (len(drawn), counts["yes"], counts["no"], counts["none"], len(wrong), seconds))
    if len(said) != count:
        wrong.append("%d answers to %d systems" % (len(said), count))
    return wrong


def many_bounds():
    """Six variables in 12 forms without equations: lists of shadows that grow."""
    draw = random.Random(1)
    return [("le", [(size(draw, 20), x) for x in range(6)], draw.randint(-50, 50))
            for _ in range(12)]


def many_splinters():
    """Two strips that cross where no whole point is, with as many splinters as coefficients."""
    return (between(27000001, [(1100009, 0), (1300021, 1)], 27000045)
            + between(-10, [(700001, 0), (-900007, 1)], 4))


def beside(count):
    """The same beside as many other forms, which stand in the list of each splinter."""
    others = [("le", [(1, x + 2), (-1, x + 3)], 0) for x in range(count)]
    return many_splinters() + others


def chain(count):
    """As many equations, each of a variable and the next one."""
    return [("eq", [(1, x), (-1, x + 1)], 0) for x in range(count)]


def measured(program, system, steps):
    """What a program says of a system with 2 MiB of stack: also its seconds and KiB."""
    def limit():
        resource.setrlimit(resource.RLIMIT_STACK, (2 << 20, 2 << 20))

    with subprocess.Popen([program], stdin=subprocess.PIPE, stdout=subprocess.PIPE,
                          preexec_fn=limit) as process:
        process.stdin.write((line_of(system, steps) + "\n").encode())
        process.stdin.flush()
        said = process.stdout.readline().decode().strip()
        place = "/proc/%d/" % process.pid
        with open(place + "stat", encoding="utf-8") as file:
            ticks = sum(int(it) for it in file.read().rsplit(")", 1)[1].split()[11:13])
        with open(place + "status", encoding="utf-8") as file:
            status = dict(it.split(":", 1) for it in file.read().splitlines())
        process.stdin.close()
        process.wait()
    seconds = ticks / os.sysconf("SC_CLK_TCK")
    if process.returncode != 0:
        said = "ended with %d" % process.returncode
    return said, seconds, status["VmHWM"].split()[0], status["VmStk"].split()[0]


def steps_mode(program):
    form = "%-10s %9s %8s %8s %6s  %s"
    print(form % ("system", "steps", "seconds", "KiB", "stack", "answer"))
    wrong = []
    for name, system, steps in (("bounds", many_bounds(), STEPS),
                                ("splinters", many_splinters(), STEPS),
                                ("beside", beside(1000), STEPS),
                                ("chain", chain(10000), STEPS)):
        said, seconds, memory, stack = measured(program, system, steps)
        print(form % (name, steps, "%.2f" % seconds, memory, stack, said[:50]), flush=True)
        if said.startswith("ended"):
            wrong.append("%s %s" % (name, said))
    return wrong


def main():
    mode = sys.argv[1]
    program = sys.argv[2] if len(sys.argv) > 2 else PROGRAM
    seed = int(sys.argv[3]) if len(sys.argv) > 3 else 1
    if mode == "solvers":
        wrong = solvers(program, seed)
    elif mode == "points":
        wrong = points(program, seed, int(sys.argv[4]) if len(sys.argv) > 4 else 100000)
    else:
        wrong = steps_mode(program)
    for it in wrong[:20]:
        print(it)
    sys.exit(1 if wrong else 0)


main()
