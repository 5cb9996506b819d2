"""Sets four lists of statements side by side.

A column has one statement of each copy, or none. Two statements may stand in one column if they
are alike: equal, assignments to one name, both `if`, or both `while`. First as much as possible
is shared by all four; then what related copies have alike is counted.
"""
import functools
import itertools
import operator
from bisect import bisect_left
from collections import Counter
from typing import Counter as Counts
from typing import Dict, Iterable, List, Optional, Sequence, Tuple

from . import trees
from .trees import Statement

Column = Tuple[Optional[Statement], ...]
Entry = Tuple[int, ...]

# Not A and B: what both added is no relation of the two. With it two added loops of one head are
# set beside each other, and the proof is lost.
RELATED = ((0, 1), (0, 2), (0, 3), (1, 3), (2, 3))

SHARED_COUNTS = 1_000_000
MOST_CELLS = 30_000
MOST_PAIRS = 250_000
NONE = -1


class Catalogue:
    """Numbers statements, so that equal ones have one number, and says how alike two are."""

    def __init__(self) -> None:
        self.numbers: Dict[Statement, int] = {}
        self.statements: List[Statement] = []
        self.kinds: List[Tuple[str, ...]] = []
        self.inner: List[Counts[int]] = []
        self.sizes: List[int] = []
        self.likeness: Dict[Tuple[int, int], int] = {}
        self.scores: Dict[Entry, int] = {}

    def number(self, statement: Statement) -> int:
        known = self.numbers.get(statement)
        if known is not None:
            return known
        inner: Counts[int] = Counter()
        for block in trees.blocks_of(statement):
            for part in block:
                number = self.number(part)
                inner[number] += 1
                inner.update(self.inner[number])
        self.numbers[statement] = len(self.statements)
        self.statements.append(statement)
        self.kinds.append(kind_of(statement))
        self.inner.append(inner)
        self.sizes.append(1 + sum(inner.values()))
        return self.numbers[statement]

    def one_head(self, numbers: Iterable[int]) -> bool:
        """Whether all are `if` or all `while`, of one guard."""
        heads = {head_of(self.statements[number]) for number in numbers}
        return len(heads) == 1 and None not in heads

    def alike(self, one: int, two: int) -> int:
        """How much two statements have alike, which may stand in one column."""
        known = self.likeness.get((one, two))
        if known is None:
            if one == two:
                known = 2 * self.sizes[one]
            else:
                common = sum((self.inner[one] & self.inner[two]).values())
                known = 1 + self.one_head((one, two)) + 2 * common
            self.likeness[one, two] = known
        return known

    def shared(self, entry: Entry) -> int:
        """How many statements the four of a column have in common."""
        if NONE in entry:
            return 0
        if len(set(entry)) == 1:
            return self.sizes[entry[0]]
        if not self.one_head(entry):
            return 0
        common = self.inner[entry[0]]
        for number in entry[1:]:
            common = common & self.inner[number]
        return 1 + sum(common.values())

    def score(self, entry: Entry) -> int:
        known = self.scores.get(entry)
        if known is None:
            known = SHARED_COUNTS * self.shared(entry)
            for one, two in RELATED:
                if entry[one] != NONE and entry[two] != NONE:
                    known += 2 * self.alike(entry[one], entry[two])
            # of equal ways the one in which what both sides added stands apart
            if entry[0] == NONE and entry[1] != NONE and entry[2] != NONE:
                known -= 1
            self.scores[entry] = known
        return known

    def column(self, entry: Entry) -> Column:
        return tuple(None if n == NONE else self.statements[n] for n in entry)


def kind_of(statement: Statement) -> Tuple[str, ...]:
    """Two statements may stand in one column where this is one."""
    if isinstance(statement, trees.Assign):
        return ("var", statement.name)
    if isinstance(statement, trees.Put):
        return ("array", statement.array)
    return (type(statement).__name__,)


def head_of(statement: Statement) -> Optional[Tuple[object, ...]]:
    if isinstance(statement, (trees.If, trees.While)):
        return (type(statement), statement.guard)
    return None


def columns_of(blocks: Sequence[Sequence[Statement]], catalogue: Catalogue) -> List[Column]:
    """The columns of four lists of statements."""
    lists = [[catalogue.number(statement) for statement in block] for block in blocks]
    return [catalogue.column(entry) for entry in entries_of(lists, catalogue)]


def entries_of(lists: List[List[int]], catalogue: Catalogue) -> List[Entry]:
    """Equal ends are cut off; what is too large to try is parted, or set side by side in turn."""
    shortest = min(map(len, lists))
    front = 0
    while front < shortest and len({part[front] for part in lists}) == 1:
        front += 1
    back = 0
    while back < shortest - front and len({part[-1 - back] for part in lists}) == 1:
        back += 1
    middle = [part[front : len(part) - back] for part in lists]
    head: List[Entry] = [(number,) * 4 for number in lists[0][:front]]
    tail: List[Entry] = [(number,) * 4 for number in lists[0][len(lists[0]) - back :]]
    return head + middle_entries(middle, catalogue) + tail


def middle_entries(lists: List[List[int]], catalogue: Catalogue) -> List[Entry]:
    cells = 1
    for part in lists:
        cells *= len(part) + 1
    if cells <= MOST_CELLS:
        return exact_entries(lists, catalogue)
    anchors = anchors_of(lists)
    if not anchors:
        return entries_in_turn(lists, catalogue)
    entries: List[Entry] = []
    starts = [0, 0, 0, 0]
    for anchor in [*anchors, tuple(map(len, lists))]:
        between = [part[s:e] for part, s, e in zip(lists, starts, anchor)]
        entries += entries_of(between, catalogue)
        if anchor[0] < len(lists[0]):
            entries.append(tuple(part[place] for part, place in zip(lists, anchor)))
        starts = [place + 1 for place in anchor]
    return entries


def anchors_of(lists: List[List[int]]) -> List[Tuple[int, ...]]:
    """The places of statements that each copy has once, in one order in all four."""
    counts = [Counter(part) for part in lists]
    places = [{number: place for place, number in enumerate(part)} for part in lists]
    once = [n for n in lists[0] if all(count[n] == 1 for count in counts)]
    for copy in (1, 2, 3):
        once = rising(once, [places[copy][number] for number in once])
    return [tuple(place[number] for place in places) for number in once]


def rising(items: List[int], keys: List[int]) -> List[int]:
    """The items of a longest part in which the keys rise. No two keys are equal."""
    tops: List[int] = []
    ends: List[int] = []
    before: List[int] = []
    for place, key in enumerate(keys):
        length = bisect_left(tops, key)
        before.append(ends[length - 1] if length else -1)
        tops[length:] = [key] + tops[length + 1 :]
        ends[length:] = [place] + ends[length + 1 :]
    chosen = []
    place = ends[-1] if ends else -1
    while place >= 0:
        chosen.append(items[place])
        place = before[place]
    return chosen[::-1]


Mask = Tuple[int, ...]


@functools.lru_cache(maxsize=None)
def masks_of(kinds: Tuple[Optional[int], ...]) -> List[Mask]:
    """Which copies may go on in one column, by the kinds of their next statements: the most
    first, then the base, A, B and the candidate alone."""
    masks = []
    for mask in itertools.product((1, 0), repeat=4):
        chosen = {kind for kind, bit in zip(kinds, mask) if bit}
        if len(chosen) == 1 and None not in chosen:
            masks.append(mask)
    return sorted(masks, key=sum, reverse=True)


class Ways:
    """The best way to set four lists side by side, for all that is left from each cell. A cell
    has a place in each list, and is numbered by these."""

    def __init__(self, lists: List[List[int]], catalogue: Catalogue):
        self.lists = [part + [NONE] for part in lists]
        self.catalogue = catalogue
        self.sizes = [len(part) for part in lists]
        self.strides = [1, 1, 1, 1]
        for copy in (2, 1, 0):
            self.strides[copy] = self.strides[copy + 1] * (self.sizes[copy + 1] + 1)
        cells = self.strides[0] * (self.sizes[0] + 1)
        self.best = [0] * cells
        self.taken: List[Mask] = [(0, 0, 0, 0)] * cells
        self.steps: Dict[Tuple[object, ...], List[Tuple[Mask, int, bool]]] = {}
        self.fill()

    def fill(self) -> None:
        """Goes from the last cell, where nothing is left, to the first."""
        kinds = [[*map(self.catalogue.kinds.__getitem__, part[:-1]), None] for part in self.lists]
        ahead = (range(size, -1, -1) for size in self.sizes)
        cells = range(len(self.best) - 1, -1, -1)
        for cell, (i, j, k, l) in zip(cells, itertools.product(*ahead)):
            heads = (kinds[0][i], kinds[1][j], kinds[2][k], kinds[3][l])
            steps = self.steps.get(heads)
            if steps is None:
                steps = self.steps[heads] = self.steps_of(heads)
            top = -1
            for mask, step, paired in steps:
                score = self.best[cell + step]
                if paired:
                    score += self.catalogue.score(self.entry((i, j, k, l), mask))
                if score > top:
                    top, self.taken[cell] = score, mask
            self.best[cell] = max(top, 0)

    def steps_of(self, kinds: Tuple[object, ...]) -> List[Tuple[Mask, int, bool]]:
        """Each mask with how far its cell is, and whether it sets two copies beside each other."""
        numbers = tuple(None if kind is None else kinds.index(kind) for kind in kinds)
        return [(mask, sum(itertools.compress(self.strides, mask)), sum(mask) > 1)
                for mask in masks_of(numbers)]

    def entry(self, places: Sequence[int], mask: Mask) -> Entry:
        return tuple(part[place] if bit else NONE
                     for part, place, bit in zip(self.lists, places, mask))

    def entries(self) -> List[Entry]:
        """The columns on the way from the first cell to the last."""
        entries = []
        places = [0, 0, 0, 0]
        while places != self.sizes:
            mask = self.taken[sum(map(operator.mul, places, self.strides))]
            entries.append(self.entry(places, mask))
            places = list(map(operator.add, places, mask))
        return entries


def exact_entries(lists: List[List[int]], catalogue: Catalogue) -> List[Entry]:
    """A best way to set four lists side by side, of all ways."""
    return Ways(lists, catalogue).entries()


def entries_in_turn(lists: List[List[int]], catalogue: Catalogue) -> List[Entry]:
    """Not the best way: each copy is set beside the columns of those before it."""
    entries: List[Entry] = [(number, NONE, NONE, NONE) for number in lists[0]]
    for copy in (1, 2, 3):
        entries = entries_with(entries, lists[copy], copy, catalogue)
    return entries


def entries_with(entries: List[Entry], added: List[int], copy: int,
                 catalogue: Catalogue) -> List[Entry]:
    """Columns, and the statements of one more copy among them."""
    def with_copy(entry: Entry, number: int) -> Entry:
        return entry[:copy] + (number,) + entry[copy + 1 :]

    alone = [with_copy((NONE,) * 4, number) for number in added]
    if (len(entries) + 1) * (len(added) + 1) > MOST_PAIRS:
        return entries + alone
    kinds = [catalogue.kinds[max(entry)] for entry in entries]
    best = [[0] * (len(added) + 1) for _ in range(len(entries) + 1)]

    def gain(one: int, two: int) -> Optional[int]:
        if kinds[one] != catalogue.kinds[added[two]]:
            return None
        both = catalogue.score(with_copy(entries[one], added[two]))
        return both - catalogue.score(entries[one]) + best[one + 1][two + 1]

    for one in range(len(entries) - 1, -1, -1):
        for two in range(len(added) - 1, -1, -1):
            best[one][two] = max(best[one + 1][two], best[one][two + 1], gain(one, two) or 0)
    result = []
    one = two = 0
    while one < len(entries) and two < len(added):
        if gain(one, two) == best[one][two]:
            result.append(with_copy(entries[one], added[two]))
            one, two = one + 1, two + 1
        elif best[one + 1][two] == best[one][two]:
            result.append(entries[one])
            one += 1
        else:
            result.append(alone[two])
            two += 1
    return result + entries[one:] + alone[two:]
