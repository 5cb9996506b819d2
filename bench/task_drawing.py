"""Draws small merge tasks, as trees of task_trees.py, and inputs for them."""
from task_trees import ARRAYS, NUMBERS, Task


class Maker:
    """Draws the parts of one task."""

    def __init__(self, draw):
        self.draw = draw
        self.arrays = ("a", "b") if draw.random() < 0.45 else ()
        self.literals = draw.sample(range(1, 6), 2)
        self.products = draw.random() < 0.2
        self.guards = draw.random() < 0.5
        self.apart = draw.random() < 0.6
        self.inside = False
        self.read_all()

    def read_all(self):
        self.names, self.given = NUMBERS, self.arrays + (("given",) if self.arrays else ())

    def read_for(self, target):
        """From here on a value reads little but its target, if the holes are to be kept apart."""
        self.read_all()
        if self.apart:
            self.names = ("i", "n") + ((target,) if target in NUMBERS else ())
            self.given = tuple(name for name in self.given if name in (target, "given"))

    def number(self, deep=2):
        pick = self.draw.random()
        if deep == 0 or pick < 0.45:
            if self.given and self.draw.random() < 0.35:
                return ("read", self.draw.choice(self.given), self.index())
            if self.draw.random() < 0.3:
                return ("num", self.draw.choice(self.literals))
            return ("name", self.draw.choice(self.names))
        if pick < 0.5:
            return ("neg", self.number(deep - 1))
        kinds = ["+", "+", "-"] + ["*"] * self.products
        return (self.draw.choice(kinds), self.number(deep - 1), self.number(deep - 1))

    def index(self):
        if self.draw.random() < 0.7:
            return ("name", "i")
        return self.draw.choice([("num", 0), ("name", "n"), ("+", ("name", "i"), ("num", 1))])

    def guard(self, deep=1):
        if deep and self.draw.random() < 0.15:
            kind = self.draw.choice(["&&", "||", "!"])
            return (kind,) + tuple(self.guard(0) for _ in range(1 if kind == "!" else 2))
        kind = self.draw.choice(["<", "<=", ">", ">=", "==", "!="])
        return (kind, ("name", self.draw.choice(self.names)), self.number(0))

    def write(self, target):
        if target in ARRAYS:
            return ("put", target, self.index(), self.number())
        # sums that grow and values of their own
        if self.draw.random() < 0.3:
            return ("set", target, ("+", ("name", target), self.number(1)))
        return ("set", target, self.number())

    def loop(self, body):
        less = ("<", ("name", "i"), ("name", "n"))
        return ("while", less, body + (("set", "i", ("+", ("name", "i"), ("num", 1))),))

    def filling(self, target):
        pick = self.draw.random()
        if pick < 0.08:
            return ()
        if pick < (0.11 if self.inside else 0.2) and self.guards:
            return (("if", self.guard(), (self.write(target),), ()),)
        # the search goes through each set of copies whose loops go on: few loops in loops
        if 0.2 <= pick < (0.21 if self.inside else 0.28):
            return (self.loop((self.write(target),)),)
        if pick < 0.4:
            return (self.write(target), self.write(target))
        return (self.write(target),)

    def target(self):
        return self.draw.choice(("x", "y", "z") + self.arrays)

    def edited(self, filling, target):
        """Another filling in place of one."""
        pick = self.draw.random()
        if pick < 0.3 or not filling:
            return filling + (self.write(target),)
        if pick < (0.33 if self.inside else 0.4) and self.guards:
            return (("if", self.guard(), filling, ()),)
        if pick < 0.5:
            return filling[1:]
        place = self.draw.randrange(len(filling))
        return filling[:place] + (self.changed(filling[place], target),) + filling[place + 1:]

    def changed(self, s, target):
        if s[0] in ("set", "put"):
            value = s[-1] if self.draw.random() < 0.5 else self.number(1)
            return s[:-1] + ((self.draw.choice("+-"), value, self.number(0)),)
        if s[0] == "if" and self.draw.random() < 0.5:
            return ("if", self.guard()) + s[2:]
        if s[0] == "while" and self.draw.random() < 0.3:
            return ("while", ("<", ("name", "i"), ("+", ("name", "n"), ("num", 1)))) + s[2:]
        return s[:2] + ((self.write(target),) + s[2],) + s[3:]

    def rewritten(self, tree):
        """The same value in other words: what stands on both sides of `+` and `*` is exchanged."""
        if not isinstance(tree, tuple):
            return tree
        tree = tuple(self.rewritten(part) for part in tree)
        if tree and tree[0] in ("+", "*") and len(tree) == 3:
            return (tree[0], tree[2], tree[1])
        return tree

    def shared(self, holes):
        """A shared block round as many holes."""
        marks = tuple(("hole", k + 1) for k in range(holes))
        zero = ("set", "i", ("num", 0))
        pick = self.draw.random()
        if pick < 0.35:
            return self.spread(marks)
        if pick < 0.6:
            return (zero, self.loop((self.write(self.target()),))) + self.spread(marks)
        self.inside = True
        if pick < 0.8:
            first = self.draw.randrange(1, min(holes, 2) + 1)
            return (zero, self.loop(self.spread(marks[:first]))) + marks[first:]
        if pick < 0.85:
            return (zero, self.loop((("if", self.guard(), marks[:1], ()),))) + marks[1:]
        return (("if", self.guard(), marks[:1], marks[1:2]),) + marks[2:]

    def spread(self, marks):
        """Holes with shared statements between them at times."""
        block = ()
        for mark in marks:
            if self.draw.random() < 0.35:
                block += (self.write(self.target()),)
            block += (mark,)
        return block

    def assumption(self):
        if self.draw.random() >= 0.15:
            return ()
        return self.draw.choice([
            (">=", ("name", "n"), ("num", 0)), ("==", ("name", "x"), ("name", "y")),
            ("<", ("name", "x"), ("name", "n")),
            ("&&", ("<=", ("num", 0), ("name", "x")), ("!=", ("name", "y"), ("name", "z")))])


def candidate_of(maker, alone, o, a, b):
    """What a merge has at a hole: mostly each side's edit, at times a lost or a changed one."""
    if a != o and b != o and a != b:
        return maker.draw.choice([a, b, a + b])
    edit = a if a != o else b
    pick = maker.draw.random()
    if pick < 0.05:
        return o
    if pick < 0.08:
        return maker.edited(edit, "x")
    if pick < (0.7 if alone else 0.25):
        return maker.rewritten(edit)
    return edit


def sides_of(draw, holes):
    """Who edits each hole: of two holes and more each side edits one."""
    some = ["a", "b"] if holes > 1 else []
    some += [draw.choice(["a", "b", "both", "same"]) for _ in range(holes - len(some))]
    draw.shuffle(some)
    return some


def made(draw):
    maker = Maker(draw)
    holes = draw.choice([1, 2, 2, 2, 2, 3, 3])
    shared = maker.shared(holes)
    lists = [{}, {}, {}, {}]
    targets = draw.sample(("x", "y", "z") + maker.arrays, holes)
    for hole, (target, side) in enumerate(zip(targets, sides_of(draw, holes)), 1):
        maker.read_for(target)
        o = a = b = maker.filling(target)
        if side != "b":
            a = maker.edited(o, target)
        if side in ("b", "both"):
            b = maker.edited(o, target)
        if side == "same":
            b = a
        for filling, value in zip(lists, (o, a, b, candidate_of(maker, holes == 1, o, a, b))):
            filling[hole] = value
    maker.read_all()
    extra = [name for name in ("x", "y", "z") + maker.arrays if name not in targets]
    outputs = tuple(targets) + tuple(name for name in extra if draw.random() < 0.25)
    return Task(outputs, maker.assumption(), shared, lists)


def stores_of(draw, count):
    """Numbers and arrays, mostly small."""
    stores = []
    for _ in range(count):
        low, high = draw.choice([(-3, 6), (0, 4), (-1, 2), (-20, 20)])
        value = lambda: draw.randrange(low, high + 1)
        arrays = [{k: value() for k in range(-2, 8) if draw.random() < 0.8} for _ in ARRAYS]
        stores.append(tuple(value() for _ in NUMBERS) + tuple(arrays))
    return stores
