"""What a page on a task shows: its lines in four columns, who changed them, and what they did."""
from dataclasses import dataclass, field
from itertools import count, zip_longest
from typing import Dict, Iterator, List, NamedTuple, Optional, Sequence, Tuple

from . import printing, trees
from .asking import Answer, Verdict
from .running import Cell, Machine, Store, Unended, cells_of
from .trees import Block, Statement, Task

NAMES = ("base", "A", "B", "candidate")
SIDES = {"a": "A", "b": "B", "both": "A and B", "alone": "the candidate alone"}
ANSWERS = {
    Answer.ACCEPTED: "From every start that meets the assumption, if there is one, and from which"
    " all four programs end, the candidate has what A changed and what B changed, at every output,"
    " and changes nothing else.",
    Answer.CONFLICT: "There is a start from which the candidate lacks what A or B changed, or has"
    " a change that nobody made.",
    Answer.UNKNOWN: "Nothing is claimed. A person has to look.",
}
MOST_VALUES = 4
WATCHED_TURNS = 100_000
PADDING = "  "


class Line(NamedTuple):
    """One line of one program, and the number of the statement that begins there."""

    text: str
    number: Optional[int]


@dataclass
class Row:
    """A line of each of the four, who changed what stands there, and whose differ from the base."""

    lines: Tuple[Optional[Line], ...]
    side: str = ""
    changed: Tuple[bool, ...] = (False,) * len(NAMES)


@dataclass
class Trace:
    """What each statement did in a run, by its number, and what the run ended with."""

    told: Dict[int, List[int]] = field(default_factory=dict)
    end: Optional[Store] = None


@dataclass
class Page:
    """All that a page shows."""

    name: str
    task: Task
    verdict: Verdict
    rows: List[Row]
    start: Optional[Store] = None
    traces: List[Trace] = field(default_factory=list)
    cells: List[Cell] = field(default_factory=list)


def side_of(parts: Sequence[Block]) -> str:
    """Who changed what stands in a hole."""
    base, a, b, candidate = parts
    if a == base == b:
        return "" if candidate == base else "alone"
    if a != base and b != base:
        return "both"
    return "a" if a != base else "b"


def lines_of(block: Block, numbers: Iterator[int], pad: str) -> Iterator[Line]:
    """The lines of a block, each statement with the next number."""
    for statement in block:
        number = next(numbers)
        blocks = trees.blocks_of(statement)
        if not blocks:
            yield Line(pad + printing.simple_text(statement), number)
            continue
        yield Line(pad + printing.head_text(statement), number)
        for place, part in enumerate(blocks):
            if place:
                yield Line(pad + "} else {", None)
            yield from lines_of(part, numbers, pad + PADDING)
        yield Line(pad + "}", None)


def rows_of(task: Task) -> List[Row]:
    """The rows of a task. Statements are numbered in each program for itself."""
    counters = [count() for _ in NAMES]

    def shared(text: str, numbered: bool) -> Row:
        return Row(tuple(Line(text, next(c) if numbered else None) for c in counters))

    def hole(number: int, pad: str) -> Iterator[Row]:
        parts = [filling[number] for filling in task.fillings]
        columns = [lines_of(part, c, pad) for part, c in zip(parts, counters)]
        changed = tuple(part != parts[0] for part in parts)
        for lines in zip_longest(*columns):
            yield Row(lines, side_of(parts), changed)

    def walk(block: Block, pad: str) -> Iterator[Row]:
        for statement in block:
            blocks = trees.blocks_of(statement)
            if isinstance(statement, trees.Hole):
                yield from hole(statement.number, pad)
            elif not blocks:
                yield shared(pad + printing.simple_text(statement), True)
            else:
                yield from entered(statement, blocks, pad)

    def entered(statement: Statement, blocks: Sequence[Block], pad: str) -> Iterator[Row]:
        yield shared(pad + printing.head_text(statement), True)
        for place, part in enumerate(blocks):
            if place:
                yield shared(pad + "} else {", False)
            yield from walk(part, pad + PADDING)
        yield shared(pad + "}", False)

    return list(walk(task.shared, ""))


def traced(program: trees.Program, start: Store) -> Trace:
    """A run, with what each statement did."""
    trace = Trace()

    def tell(number: int, value: int) -> None:
        trace.told.setdefault(number, []).append(value)

    try:
        trace.end = Machine(program, WATCHED_TURNS, tell).run(start)
    except Unended:
        pass
    return trace


def page_of(name: str, task: Task, verdict: Verdict, start: Optional[Store]) -> Page:
    """The page on a task; with a start the runs from it, too."""
    page = Page(name, task, verdict, rows_of(task), start)
    if start is not None:
        page.traces = [traced(program, start) for program in task.programs()]
        ends = [trace.end for trace in page.traces if trace.end is not None]
        if len(ends) == len(NAMES):
            page.cells = cells_of(task, ends)
    return page


def done(page: Page, copy: int, line: Line) -> Optional[str]:
    """What a line did in the run of a copy, in a few signs. None where it didn't come to run."""
    if line.number is None or not page.traces:
        return ""
    told = page.traces[copy].told.get(line.number)
    if told is None:
        return None
    if line.text.endswith("{"):
        if line.text.lstrip().startswith("while"):
            turns = sum(map(bool, told))
            return "1 turn" if turns == 1 else "%d turns" % turns
        told_words = ["yes" if value else "no" for value in told]
    else:
        told_words = [] if line.text.endswith("skip;") else [str(value) for value in told]
    if len(told_words) > MOST_VALUES:
        told_words[MOST_VALUES - 1 : -1] = ["…"]
    return ", ".join(told_words)
