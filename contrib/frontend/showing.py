"""Answers in words, and what four programs end with as a table."""
from typing import List, Sequence

from .running import Cell, Store
from .trees import Task

MOST_ROWS = 40
GIT_NAMES = ("base", "ours", "theirs", "merge")


def start_text(task: Task, store: Store) -> str:
    """The start, in the order of the declarations."""
    parts = []
    for name, sort in task.front.sorts.items():
        value = store.get(name, {} if sort == "array" else 0)
        if isinstance(value, dict):
            cells = ["%d: %d" % (index, cell) for index, cell in sorted(value.items()) if cell]
            parts.append("%s = {%s}" % (name, ", ".join(cells)))
        else:
            parts.append("%s = %d" % (name, value))
    return ", ".join(parts)


def shown_cells(cells: Sequence[Cell]) -> List[Cell]:
    """Not more rows than one reads; those that are wrong first, where not all can stand."""
    if len(cells) <= MOST_ROWS:
        return list(cells)
    return sorted(cells, key=lambda cell: not cell.broken)[:MOST_ROWS]


def table(cells: Sequence[Cell], names: Sequence[str]) -> List[str]:
    """Each output in the four programs. A row that is wrong has a mark."""
    rows = [("output", *names)]
    rows += [(cell.name, *map(str, cell.values)) for cell in shown_cells(cells)]
    widths = [max(map(len, column)) for column in zip(*rows)]
    marks = ["  "] + ["! " if cell.broken else "  " for cell in shown_cells(cells)]
    lines = []
    for mark, row in zip(marks, rows):
        numbers = [text.rjust(width) for text, width in zip(row[1:], widths[1:])]
        lines.append("%s%s  %s" % (mark, row[0].ljust(widths[0]), "  ".join(numbers)))
    if len(cells) > MOST_ROWS:
        lines.append("  and %d more" % (len(cells) - MOST_ROWS))
    return lines


def sentences(cell: Cell, names: Sequence[str]) -> List[str]:
    """Each clause of the condition that fails at an output, in words."""
    base, a, b, candidate = cell.values
    said = []
    for clause, side, value in ((1, names[1], a), (2, names[2], b)):
        if clause in cell.broken:
            said.append("%s: the change of %s is lost: %s has %d, %s %d, and %s %d" % (
                cell.name, side, names[0], base, side, value, names[3], candidate))
    if 3 in cell.broken:
        said.append("%s: a change that nobody made: %s, %s and %s have %d, and %s %d" % (
            cell.name, names[0], names[1], names[2], base, names[3], candidate))
    return said


def conflict_lines(task: Task, store: Store, cells: Sequence[Cell],
                   names: Sequence[str]) -> List[str]:
    """The start, the table and the sentences of a conflict."""
    said = [line for cell in cells for line in sentences(cell, names)]
    if len(said) > MOST_ROWS:
        said[MOST_ROWS:] = ["and %d more" % (len(said) - MOST_ROWS)]
    return ["start: " + start_text(task, store), "", *table(cells, names), "", *said]


def open_text(words: Sequence[str], task: Task, names: Sequence[str]) -> str:
    """What stays open, of the words `Unknown KIND NODE GOAL ..`."""
    if len(words) < 4 or not words[3].isdigit():
        return ""
    output, clause = divmod(int(words[3]), 3)
    if output >= len(task.front.outputs):
        return ""
    kept = ("that the change of %s is kept" % names[1], "that the change of %s is kept" % names[2],
            "that nothing is added")[clause]
    return "what isn't shown: at `%s`, %s" % (task.front.outputs[output], kept)
