"""Runs programs on whole numbers of any size, to show what they end with and to look for inputs
at which a merge goes wrong. No answer rests on it: what it finds is put to the program."""
from typing import Callable, Dict, Iterator, List, NamedTuple, Optional, Sequence, Tuple, Union

from . import trees
from .trees import Block, Condition, Expression, Program, Statement, Task

Cells = Dict[int, int]
Store = Dict[str, Union[int, Cells]]
Watch = Callable[[int, int], None]
Step = Callable[[Store], None]
Value = Callable[[Store], int]

# Squares of squares would fill the memory long before the turns are used up.
LARGEST_PRODUCT = 2**4096


class Unended(Exception):
    """A run that takes too many turns, or a product that is too large."""


def product(one: int, two: int) -> int:
    value = one * two
    if abs(value) > LARGEST_PRODUCT:
        raise Unended
    return value


SIGNS: Dict[str, Callable[[int, int], int]] = {
    "+": lambda one, two: one + two,
    "-": lambda one, two: one - two,
    "*": product,
    "==": lambda one, two: one == two,
    "!=": lambda one, two: one != two,
    "<": lambda one, two: one < two,
    "<=": lambda one, two: one <= two,
    ">": lambda one, two: one > two,
    ">=": lambda one, two: one >= two,
}


def value_of(expression: Expression) -> Value:
    """An expression as a function of the store."""
    if isinstance(expression, trees.Number):
        number = expression.value
        return lambda store: number
    if isinstance(expression, trees.Name):
        name = expression.name
        return lambda store: store[name]  # type: ignore
    if isinstance(expression, trees.Read):
        array, index = expression.array, value_of(expression.index)
        return lambda store: store[array].get(index(store), 0)  # type: ignore
    if isinstance(expression, trees.Negation):
        part = value_of(expression.part)
        return lambda store: -part(store)
    return joined(expression.sign, value_of(expression.left), value_of(expression.right))


def joined(sign: str, left: Value, right: Value) -> Value:
    apply = SIGNS[sign]
    return lambda store: apply(left(store), right(store))


def truth_of(condition: Condition) -> Callable[[Store], bool]:
    """A condition as a function of the store."""
    if isinstance(condition, trees.Truth):
        truth = condition.value
        return lambda store: truth
    if isinstance(condition, trees.Comparison):
        compared = joined(condition.sign, value_of(condition.left), value_of(condition.right))
        return lambda store: bool(compared(store))
    if isinstance(condition, trees.Contrary):
        part = truth_of(condition.part)
        return lambda store: not part(store)
    left, right = truth_of(condition.left), truth_of(condition.right)
    if condition.sign == "&&":
        return lambda store: left(store) and right(store)
    return lambda store: left(store) or right(store)


class Machine:
    """Runs one program. It may take so many turns in all, and tells the watch what each statement
    did, by the statement's number in the text: the value that was written, or whether the guard
    held."""

    def __init__(self, program: Program, turns: int, watch: Optional[Watch] = None):
        self.sorts = program.front.sorts
        self.turns = turns
        self.left = 0
        self.watch = watch
        self.numbers: Iterator[int] = iter(range(trees.MOST_NODES))
        self.body = self.block(program.body)

    def run(self, start: Store) -> Store:
        """The store that the program ends with."""
        self.left = self.turns
        store: Store = {}
        for name, sort in self.sorts.items():
            given = start.get(name, {} if sort == "array" else 0)
            store[name] = dict(given) if isinstance(given, dict) else given
        self.body(store)
        return store

    def block(self, block: Block) -> Step:
        steps = [self.statement(statement) for statement in block]

        def run_all(store: Store) -> None:
            for step in steps:
                step(store)

        return run_all

    def statement(self, statement: Statement) -> Step:
        tell = self.teller(next(self.numbers))
        if isinstance(statement, trees.Assign):
            return self.assign(statement, tell)
        if isinstance(statement, trees.Put):
            return self.put(statement, tell)
        if isinstance(statement, trees.If):
            return self.branch(statement, tell)
        if isinstance(statement, trees.While):
            return self.loop(statement, tell)
        return lambda store: tell(0)

    def teller(self, number: int) -> Callable[[int], None]:
        watch = self.watch
        if watch is None:
            return lambda value: None
        told = watch
        return lambda value: told(number, value)

    def assign(self, statement: trees.Assign, tell: Callable[[int], None]) -> Step:
        name, value = statement.name, value_of(statement.value)

        def step(store: Store) -> None:
            written = value(store)
            store[name] = written
            tell(written)

        return step

    def put(self, statement: trees.Put, tell: Callable[[int], None]) -> Step:
        array, index, value = statement.array, value_of(statement.index), value_of(statement.value)

        def step(store: Store) -> None:
            written = value(store)
            store[array][index(store)] = written  # type: ignore
            tell(written)

        return step

    def branch(self, statement: trees.If, tell: Callable[[int], None]) -> Step:
        guard = truth_of(statement.guard)
        then, other = self.block(statement.then), self.block(statement.other)

        def step(store: Store) -> None:
            holds = guard(store)
            tell(holds)
            (then if holds else other)(store)

        return step

    def loop(self, statement: trees.While, tell: Callable[[int], None]) -> Step:
        guard, body = truth_of(statement.guard), self.block(statement.body)

        def step(store: Store) -> None:
            while guard(store):
                tell(True)
                if self.left == 0:
                    raise Unended
                self.left -= 1
                body(store)
            tell(False)

        return step


class Cell(NamedTuple):
    """An output, what the four programs end with there, and the clauses that fail there."""

    name: str
    values: Tuple[int, ...]
    broken: Tuple[int, ...]


def broken_clauses(base: int, a: int, b: int, candidate: int) -> Tuple[int, ...]:
    """1 where A's change is lost, 2 where B's is, 3 where the candidate has one of its own."""
    checks = (
        (1, base != a and candidate != a),
        (2, base != b and candidate != b),
        (3, base == a == b and candidate != base),
    )
    return tuple(clause for clause, fails in checks if fails)


def cells_of(task: Task, ends: Sequence[Store]) -> List[Cell]:
    """All number outputs, and of arrays the cells that aren't one in all four."""
    cells = []
    for name in task.front.outputs:
        found = [end[name] for end in ends]
        if task.front.sorts[name] == "var":
            numbers = tuple(found)
            cells.append(Cell(name, numbers, broken_clauses(*numbers)))  # type: ignore
            continue
        for index in sorted(set().union(*found)):  # type: ignore
            four = tuple(array.get(index, 0) for array in found)  # type: ignore
            if len(set(four)) > 1:
                cells.append(Cell("%s[%d]" % (name, index), four, broken_clauses(*four)))
    return cells


class Machines:
    """The four programs of a task, and its assumption."""

    def __init__(self, task: Task, turns: int):
        self.task = task
        self.four = [Machine(program, turns) for program in task.programs()]
        assumed = task.front.assumed
        self.meets = truth_of(trees.Truth(True) if assumed is None else assumed)

    def cells(self, start: Store) -> Optional[List[Cell]]:
        """What the programs end with, where the start meets the assumption and all end."""
        try:
            if not self.meets(self.started(start)):
                return None
            return cells_of(self.task, [machine.run(start) for machine in self.four])
        except Unended:
            return None

    def started(self, start: Store) -> Store:
        """The start with each declared name."""
        empty = {name: {} if sort == "array" else 0 for name, sort in self.task.front.sorts.items()}
        return {**empty, **start}  # type: ignore
