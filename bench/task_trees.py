"""Merge tasks as trees: their text, their programs as Python functions, and what `replay` says.

An expression, a condition and a statement are tuples that begin with their kind; a block is a
tuple of statements.
"""
import json

NUMBERS = ("i", "n", "x", "y", "z")
ARRAYS = ("a", "b", "given")
LISTS = ("base", "variant_a", "variant_b", "candidate")
TURNS = 64
LARGEST = 2 ** 127


class OutOfTurns(Exception):
    pass


class Beyond(Exception):
    pass


def product(one, two):
    value = one * two
    if not -LARGEST <= value < LARGEST:
        raise Beyond
    return value


def expression(e):
    """The text of an expression, for the task and for Python."""
    if e[0] == "num":
        return str(e[1]), str(e[1])
    if e[0] == "name":
        return e[1], e[1]
    if e[0] == "read":
        text, code = expression(e[2])
        return "%s[%s]" % (e[1], text), "%s.get(%s, 0)" % (e[1], code)
    if e[0] == "neg":
        text, code = expression(e[1])
        return "-(%s)" % text, "(-%s)" % code
    left, right = expression(e[1]), expression(e[2])
    text = "(%s %s %s)" % (left[0], e[0], right[0])
    if e[0] == "*":
        return text, "product(%s, %s)" % (left[1], right[1])
    return text, "(%s %s %s)" % (left[1], e[0], right[1])


def condition(c):
    if c[0] in ("&&", "||"):
        one, two = condition(c[1]), condition(c[2])
        word = "and" if c[0] == "&&" else "or"
        return "[%s] %s [%s]" % (one[0], c[0], two[0]), "(%s %s %s)" % (one[1], word, two[1])
    if c[0] == "!":
        one = condition(c[1])
        return "![%s]" % one[0], "(not %s)" % one[1]
    left, right = expression(c[1]), expression(c[2])
    return "%s %s %s" % (left[0], c[0], right[0]), "%s %s %s" % (left[1], c[0], right[1])


def block_text(block, deep):
    return "".join(statement_text(s, "  " * deep, deep) for s in block)


def statement_text(s, pad, deep):
    if s[0] == "skip":
        return pad + "skip;\n"
    if s[0] == "hole":
        return "%s?%d;\n" % (pad, s[1])
    if s[0] == "set":
        return "%s%s = %s;\n" % (pad, s[1], expression(s[2])[0])
    if s[0] == "put":
        return "%s%s[%s] = %s;\n" % (pad, s[1], expression(s[2])[0], expression(s[3])[0])
    head = "%s%s (%s) {\n%s%s}" % (pad, s[0], condition(s[1])[0], block_text(s[2], deep + 1), pad)
    return head + (" else {\n%s%s}\n" % (block_text(s[3], deep + 1), pad) if s[0] == "if" else "\n")


def block_code(block, deep):
    pad = "    " * deep
    lines = []
    for s in block:
        if s[0] == "set":
            lines.append("%s%s = %s" % (pad, s[1], expression(s[2])[1]))
        elif s[0] == "put":
            lines.append("%s%s[%s] = %s" % (pad, s[1], expression(s[2])[1], expression(s[3])[1]))
        elif s[0] == "if":
            lines += ["%sif %s:" % (pad, condition(s[1])[1])] + block_code(s[2], deep + 1)
            lines += [pad + "else:"] + block_code(s[3], deep + 1)
        elif s[0] == "while":
            turns = "turns%d" % deep
            lines += ["%s%s = 0" % (pad, turns), "%swhile %s:" % (pad, condition(s[1])[1])]
            lines += ["%s    %s += 1" % (pad, turns), "%s    if %s > %d:" % (pad, turns, TURNS)]
            lines += ["%s        raise OutOfTurns" % pad] + block_code(s[2], deep + 1)
    return lines or [pad + "pass"]


def function_of(body, result):
    lines = ["def run(%s):" % ", ".join(NUMBERS + ARRAYS)] + body + ["    return " + result]
    names = {"product": product, "OutOfTurns": OutOfTurns}
    exec("\n".join(lines), names)  # pylint: disable=exec-used
    return names["run"]


def parts(tree):
    """All tuples of a tree, itself among them."""
    if isinstance(tree, tuple):
        yield tree
        for part in tree:
            yield from parts(part)


def has(tree, *kinds):
    return any(part and part[0] in kinds for part in parts(tree))


def filled(block, filling):
    """A block with its holes filled."""
    result = []
    for s in block:
        if s[0] == "hole":
            result += filling[s[1]]
        elif s[0] in ("if", "while"):
            result.append(s[:2] + tuple(filled(inner, filling) for inner in s[2:]))
        else:
            result.append(s)
    return tuple(result)


class Task:
    """A task, its text, and its four programs as functions from a store to the outputs."""

    def __init__(self, outputs, assumed, shared, lists):
        self.outputs, self.assumed, self.shared, self.lists = outputs, assumed, shared, lists
        self.filled = [filled(shared, filling) for filling in lists]
        words = {word for part in parts((shared, assumed, tuple(self.filled))) for word in part
                 if isinstance(word, str)} | set(outputs)
        self.declared = [name for name in NUMBERS + ARRAYS if name in words]
        self.runs = [self.run_of(body) for body in self.filled]
        self.meets = assumed and function_of([], condition(assumed)[1])

    def run_of(self, body):
        copied = ["    %s = dict(%s)" % (name, name) for name in ARRAYS if name in self.declared]
        return function_of(copied + block_code(body, 1), "(%s,)" % ", ".join(self.outputs))

    def text(self):
        lines = ["%s %s;" % ("array" if name in ARRAYS else "var", name) for name in self.declared]
        lines.append("output %s;" % ", ".join(self.outputs))
        if self.assumed:
            lines.append("assume %s;" % condition(self.assumed)[0])
        text = "\n".join(lines) + "\nshared {\n%s}\n" % block_text(self.shared, 1)
        for word, filling in zip(LISTS, self.lists):
            text += word + " {\n"
            for hole in sorted(filling):
                text += "  ?%d {\n%s  }\n" % (hole, block_text(filling[hole], 2))
            text += "}\n"
        return text

    def one_sided(self):
        o, a, b, m = self.filled
        return (b == o and m == a) or (a == o and m == b) or m == a == b

    def verdict(self, store):
        """What `replay` prints, but for the operands behind Beyond."""
        if self.meets and not self.meets(*store):
            return "Unmet"
        ends = []
        for copy, run in zip("OABM", self.runs):
            try:
                ends.append(run(*store))
            except OutOfTurns:
                return "OutOfTurns " + copy
            except Beyond:
                return "Beyond " + copy
        if ends[0] == ends[1] == ends[2] == ends[3]:
            return "Holds"
        return first_broken(self.outputs, ends)


def clause_broken(o, a, b, m):
    if o != a and m != a:
        return 1
    if o != b and m != b:
        return 2
    return 3 if o == a == b != m else 0


def first_broken(outputs, ends):
    for name, *values in zip(outputs, *ends):
        if name in NUMBERS:
            cells = [(name, values)]
        else:
            indices = sorted(set().union(*values))
            cells = [("%s[%d]" % (name, k), [array.get(k, 0) for array in values]) for k in indices]
        for cell, four in cells:
            clause = clause_broken(*four)
            if clause:
                return "Conflict cell %s clause %d" % (cell, clause)
    return "Holds"


def trial(declared, j):
    """The start store of a trial, by the formula of docs/formats.md."""
    number = lambda k: (j * (5 * k + 7) + j // 8 * (3 * k + 1)) % 19 - 6 if j else 0
    store = {}
    for k, name in enumerate(declared):
        store[name] = number(k) if name in NUMBERS else {c: number(k + c + 1) for c in range(8)}
    numbers = tuple(store.get(name, 0) for name in NUMBERS)
    return numbers + tuple(store.get(name, {}) for name in ARRAYS)


def first_trial(task):
    """The number of the first trial that violates, if one does."""
    for j in range(256):
        if task.verdict(trial(task.declared, j)).startswith("Conflict"):
            return j
    return None


def input_text(task, store):
    values = dict(zip(NUMBERS + ARRAYS, store))
    spelled = lambda v: {str(k): n for k, n in v.items()} if isinstance(v, dict) else v
    return json.dumps({name: spelled(values[name]) for name in task.declared})


def store_of(text):
    """The store that the text of an input says."""
    found = json.loads(text)
    arrays = [{int(k): int(v) for k, v in found.get(name, {}).items()} for name in ARRAYS]
    return tuple(int(found.get(name, 0)) for name in NUMBERS) + tuple(arrays)
