"""From four programs to a shared program with holes.

Where a column's four statements are one, it is shared. One with an `if` or a `while` of one guard
is gone into. All others are holes, parted where other sides changed them, and joined where code
moved between them.
"""
from dataclasses import dataclass
from itertools import count
from typing import Dict, Iterator, List, Optional, Sequence, Set, Tuple, Union

from . import trees
from .columns import RELATED, Catalogue, Column, columns_of, head_of
from .trees import Block, Statement

# A change of neither A nor B is the candidate's alone, which is a side too.
Sides = Tuple[bool, bool]


@dataclass
class Shared:
    """One statement of all four."""

    statement: Statement


@dataclass
class Entered:
    """An `if` or `while` of all four, with one guard; what its blocks have isn't one."""

    statement: Statement
    blocks: List[List["Item"]]


@dataclass
class Gap:
    """What each copy has where they aren't one."""

    parts: Tuple[Block, ...]


Item = Union[Shared, Entered, Gap]

# Where an item stands: its number in its list, and for each list that isn't the outermost, before
# it, the number of the item and of its block that the list is.
Path = Tuple[int, ...]


def aligned(blocks: Sequence[Block], catalogue: Catalogue) -> List[Item]:
    """Four lists of statements as one list of what they share, and gaps."""
    items: List[Item] = []
    waiting: List[Column] = []
    for column in columns_of(blocks, catalogue):
        if is_shared(column) or is_entered(column):
            items += gaps_of(waiting)
            waiting = []
            items.append(agreed(column, catalogue))
        else:
            waiting.append(column)
    return items + gaps_of(waiting)


def is_shared(column: Column) -> bool:
    return column.count(column[0]) == 4


def is_entered(column: Column) -> bool:
    heads = [statement and head_of(statement) for statement in column]
    return heads[0] is not None and heads.count(heads[0]) == 4


def agreed(column: Column, catalogue: Catalogue) -> Item:
    """The item of a column that is shared or gone into."""
    statement = column[0]
    assert statement is not None
    if is_shared(column):
        return Shared(statement)
    blocks = zip(*(trees.blocks_of(copy) for copy in column if copy is not None))
    return Entered(statement, [aligned(four, catalogue) for four in blocks])


def gaps_of(columns: List[Column]) -> List[Item]:
    """Neighbouring columns, in one gap where the same sides changed them."""
    gaps: List[Item] = []
    last: Optional[Sides] = None
    for column in columns:
        sides = (column[1] != column[0], column[2] != column[0])
        parts = tuple(() if statement is None else (statement,) for statement in column)
        if sides == last:
            gap = gaps[-1]
            assert isinstance(gap, Gap)
            parts = tuple(old + new for old, new in zip(gap.parts, parts))
            gaps.pop()
        gaps.append(Gap(parts))
        last = sides
    return gaps


def part_of(items: Sequence[Item], copy: int) -> Block:
    """The statements that a copy has at the items."""
    result: List[Statement] = []
    for item in items:
        if isinstance(item, Shared):
            result.append(item.statement)
        elif isinstance(item, Gap):
            result += item.parts[copy]
        else:
            blocks = tuple(part_of(block, copy) for block in item.blocks)
            result.append(trees.with_blocks(item.statement, blocks))
    return tuple(result)


def gaps_in(items: List[Item], path: Path = ()) -> Iterator[Tuple[Path, Gap]]:
    """All gaps, in the order of the text, each with where it stands."""
    for place, item in enumerate(items):
        if isinstance(item, Gap):
            yield path + (place,), item
        elif isinstance(item, Entered):
            for number, block in enumerate(item.blocks):
                yield from gaps_in(block, path + (place, number))


def with_moves_joined(items: List[Item]) -> List[Item]:
    """Where one copy writes a name in one gap and a related one in another, code moved between
    the two. These, and what is between, become one gap: cut in two, the relation of the pieces
    would have to be kept across a block or a loop."""
    while True:
        found = moved_gaps(items)
        if found is None:
            return items
        join(items, *found)


def moved_gaps(items: List[Item]) -> Optional[Tuple[Path, Path]]:
    """Two gaps between which code moved, if they touch or one is inside an `if` or a loop that
    the other isn't in."""
    givers: Dict[Tuple[str, int, int], List[Path]] = {}
    for path, gap in gaps_in(items):
        names = [trees.written(part) for part in gap.parts]
        for name, one, two in gained(names):
            for other in givers.get((name, two, one), ()):
                if is_close(other, path):
                    return other, path
            givers.setdefault((name, one, two), []).append(path)
    return None


def gained(names: List[Set[str]]) -> Iterator[Tuple[str, int, int]]:
    """Each name that a copy writes and a related one doesn't."""
    for one, two in RELATED:
        for name in sorted(names[one] - names[two]):
            yield name, one, two
        for name in sorted(names[two] - names[one]):
            yield name, two, one


def common_list(one: Path, two: Path) -> int:
    """How much of two paths is the innermost list that has both."""
    length = 0
    while one[length : length + 2] == two[length : length + 2] and length + 2 < len(one):
        length += 2
    return length


def is_close(one: Path, two: Path) -> bool:
    length = common_list(one, two)
    inside = len(one) > length + 1 or len(two) > length + 1
    return inside or abs(one[length] - two[length]) == 1


def join(items: List[Item], one: Path, two: Path) -> None:
    """Makes one gap of two gaps, the first before the second, and all between."""
    length = common_list(one, two)
    for place in range(0, length, 2):
        item = items[one[place]]
        assert isinstance(item, Entered)
        items = item.blocks[one[place + 1]]
    first, last = one[length], two[length] + 1
    items[first:last] = [Gap(tuple(part_of(items[first:last], copy) for copy in range(4)))]


def with_holes(items: Sequence[Item], numbers: Iterator[int],
               fillings: Tuple[trees.Filling, ...]) -> Block:
    """The shared program, with its holes numbered in the order of the text."""
    result: List[Statement] = []
    for item in items:
        if isinstance(item, Shared):
            result.append(item.statement)
        elif isinstance(item, Entered):
            blocks = tuple(with_holes(block, numbers, fillings) for block in item.blocks)
            result.append(trees.with_blocks(item.statement, blocks))
        else:
            number = next(numbers)
            result.append(trees.Hole(number))
            for filling, part in zip(fillings, item.parts):
                filling[number] = part
    return tuple(result)


def shared_and_fillings(bodies: Sequence[Block]) -> Tuple[Block, Tuple[trees.Filling, ...]]:
    """A program with holes, and what four programs have in them."""
    items = with_moves_joined(aligned(bodies, Catalogue()))
    fillings: Tuple[trees.Filling, ...] = ({}, {}, {}, {})
    return with_holes(items, count(1), fillings), fillings
