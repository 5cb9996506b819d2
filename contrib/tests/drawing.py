"""Draws programs, and edits of them."""
import random
from typing import List, Tuple

from frontend import trees
from frontend.trees import Block, Condition, Expression, Front, Program, Statement

NUMBERS = ("i", "n", "x", "y", "z")
ARRAYS = ("a", "b")
FRONT = Front({**{name: "var" for name in NUMBERS}, **{name: "array" for name in ARRAYS}},
              ("x", "y", "a"), None)


class Drawer:
    """Draws by one seed."""

    def __init__(self, seed: int):
        self.draw = random.Random(seed)

    def expression(self, depth: int = 2) -> Expression:
        pick = self.draw.random()
        if depth == 0 or pick < 0.5:
            if pick < 0.2:
                return trees.Number(self.draw.randrange(12))
            return trees.Name(self.draw.choice(NUMBERS))
        if pick < 0.6:
            return trees.Read(self.draw.choice(ARRAYS), self.expression(0))
        if pick < 0.65:
            return trees.Negation(self.expression(depth - 1))
        sign = self.draw.choice("++-*")
        return trees.Operation(sign, self.expression(depth - 1), self.expression(depth - 1))

    def condition(self, depth: int = 1) -> Condition:
        pick = self.draw.random()
        if pick < 0.05:
            return trees.Truth(self.draw.random() < 0.5)
        if depth and pick < 0.15:
            return trees.Contrary(self.condition(depth - 1))
        if depth and pick < 0.3:
            sign = self.draw.choice(("&&", "||"))
            return trees.Junction(sign, self.condition(depth - 1), self.condition(depth - 1))
        sign = self.draw.choice(("==", "!=", "<", "<=", ">", ">="))
        return trees.Comparison(sign, self.expression(1), self.expression(0))

    def statement(self, depth: int) -> Statement:
        pick = self.draw.random()
        if depth and pick < 0.12:
            return trees.While(self.condition(), self.block(depth - 1))
        if depth and pick < 0.3:
            return trees.If(self.condition(), self.block(depth - 1), self.block(depth - 1))
        if pick < 0.35:
            return trees.Skip()
        if pick < 0.5:
            return trees.Put(self.draw.choice(ARRAYS), self.expression(0), self.expression())
        return trees.Assign(self.draw.choice(NUMBERS), self.expression())

    def block(self, depth: int, most: int = 4) -> Block:
        return tuple(self.statement(depth) for _ in range(self.draw.randrange(most + 1)))

    def edited(self, block: Block) -> Block:
        """A block with one edit, at times deep inside."""
        if not block:
            return (self.statement(1),)
        place = self.draw.randrange(len(block))
        blocks = trees.blocks_of(block[place])
        if blocks and self.draw.random() < 0.6:
            inner = list(blocks)
            part = self.draw.randrange(len(inner))
            inner[part] = self.edited(inner[part])
            changed: Block = (trees.with_blocks(block[place], tuple(inner)),)
            return block[:place] + changed + block[place + 1 :]
        return self.edited_at(block, place)

    def edited_at(self, block: Block, place: int) -> Block:
        before, statement, after = block[:place], block[place], block[place + 1 :]
        kind = self.draw.randrange(6)
        if kind == 0:
            return before + (self.statement(1),) + block[place:]
        if kind == 1:
            return before + after
        if kind == 2:
            return before + (self.statement(1),) + after
        if kind == 3:
            return before + (trees.If(self.condition(), (statement,), ()),) + after
        if kind == 4:
            rest = list(before + after)
            rest.insert(self.draw.randrange(len(rest) + 1), statement)
            return tuple(rest)
        return before + tuple(trees.blocks_of(statement)[:1] or [(statement,)])[0] + after

    def edited_often(self, block: Block, most: int) -> Block:
        for _ in range(self.draw.randrange(most + 1)):
            block = self.edited(block)
        return block

    def four(self) -> Tuple[Program, ...]:
        """A base, two variants and a candidate that has something of both, or of none."""
        base = self.block(3, self.draw.choice((2, 5, 9)))
        a, b = self.edited_often(base, 4), self.edited_often(base, 4)
        state = self.draw.getstate()
        candidate = self.edited_often(self.draw.choice((a, b, base)), 3)
        if self.draw.random() < 0.3:
            # the edits of B once more, where they fit, on top of A
            self.draw.setstate(state)
            candidate = self.edited_often(a, 4)
        return tuple(Program(FRONT, body) for body in (base, a, b, candidate))


def quadruples(count: int) -> List[Tuple[Program, ...]]:
    return [Drawer(seed).four() for seed in range(count)]
