"""Programs and tasks as trees, and what can be asked of a tree without running it."""
from dataclasses import dataclass
from typing import Dict, Iterator, List, Optional, Set, Tuple, Union

SECTIONS = ("base", "variant_a", "variant_b", "candidate")
LETTERS = ("base", "A", "B", "candidate")
COPIES = ("base", "a", "b", "candidate")

MOST_NAMES = 200
MOST_NODES = 20_000
MOST_DEPTH = 64
LARGEST_NUMBER = 2**127 - 1
LARGEST_TEXT = 1_048_576
LAST_HOLE = 999


@dataclass(frozen=True)
class Number:
    value: int


@dataclass(frozen=True)
class Name:
    name: str


@dataclass(frozen=True)
class Read:
    array: str
    index: "Expression"


@dataclass(frozen=True)
class Negation:
    part: "Expression"


@dataclass(frozen=True)
class Operation:
    sign: str
    left: "Expression"
    right: "Expression"


Expression = Union[Number, Name, Read, Negation, Operation]


@dataclass(frozen=True)
class Truth:
    value: bool


@dataclass(frozen=True)
class Comparison:
    sign: str
    left: Expression
    right: Expression


@dataclass(frozen=True)
class Contrary:
    part: "Condition"


@dataclass(frozen=True)
class Junction:
    sign: str
    left: "Condition"
    right: "Condition"


Condition = Union[Truth, Comparison, Contrary, Junction]


@dataclass(frozen=True)
class Skip:
    pass


@dataclass(frozen=True)
class Assign:
    name: str
    value: Expression


@dataclass(frozen=True)
class Put:
    array: str
    index: Expression
    value: Expression


@dataclass(frozen=True)
class If:
    guard: Condition
    then: "Block"
    other: "Block"


@dataclass(frozen=True)
class While:
    guard: Condition
    body: "Block"


@dataclass(frozen=True)
class Hole:
    number: int


Statement = Union[Skip, Assign, Put, If, While, Hole]
Block = Tuple[Statement, ...]
Filling = Dict[int, Block]


@dataclass(frozen=True)
class Front:
    """What stands before the statements: each name's sort, `var` or `array`, in order."""

    sorts: Dict[str, str]
    outputs: Tuple[str, ...]
    assumed: Optional[Condition]


@dataclass(frozen=True)
class Program:
    front: Front
    body: Block


@dataclass(frozen=True)
class Task:
    front: Front
    shared: Block
    fillings: Tuple[Filling, ...]

    def programs(self) -> Tuple[Program, ...]:
        """The base, the two variants and the candidate."""
        return tuple(Program(self.front, filled(self.shared, f)) for f in self.fillings)


def blocks_of(statement: Statement) -> Tuple[Block, ...]:
    """The blocks that a statement has, in the order of the text."""
    if isinstance(statement, If):
        return (statement.then, statement.other)
    if isinstance(statement, While):
        return (statement.body,)
    return ()


def with_blocks(statement: Statement, blocks: Tuple[Block, ...]) -> Statement:
    """An `if` or `while` with other blocks."""
    if isinstance(statement, If):
        return If(statement.guard, *blocks)
    assert isinstance(statement, While)
    return While(statement.guard, *blocks)


def filled(block: Block, filling: Filling) -> Block:
    """A block with the statements of a filling in place of its holes."""
    result: List[Statement] = []
    for statement in block:
        if isinstance(statement, Hole):
            result += filling[statement.number]
        elif blocks_of(statement):
            inner = tuple(filled(part, filling) for part in blocks_of(statement))
            result.append(with_blocks(statement, inner))
        else:
            result.append(statement)
    return tuple(result)


def all_statements(block: Block) -> Iterator[Statement]:
    """The statements of a block, in the order of the text, each before its parts."""
    for statement in block:
        yield statement
        for part in blocks_of(statement):
            yield from all_statements(part)


def written(block: Block) -> Set[str]:
    """The names that a block may write."""
    names = set()
    for statement in all_statements(block):
        if isinstance(statement, Assign):
            names.add(statement.name)
        elif isinstance(statement, Put):
            names.add(statement.array)
    return names


def parts_of(node: object) -> Iterator[object]:
    """The trees that stand right under a tree."""
    for value in vars(node).values():
        if isinstance(value, tuple):
            yield from value
        elif not isinstance(value, (str, int)):
            yield value


def all_nodes(node: object) -> Iterator[object]:
    """A tree and all that is below it."""
    waiting = [node]
    while waiting:
        last = waiting.pop()
        yield last
        waiting.extend(parts_of(last))


def depth_of(node: object) -> int:
    """1 for a leaf, and 1 more than its deepest part for any other tree."""
    deepest, level = 0, [node]
    while level:
        deepest += 1
        level = [part for tree in level for part in parts_of(tree)]
    return deepest
