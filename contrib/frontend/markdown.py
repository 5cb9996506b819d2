"""A page as Markdown, for a comment on a merge."""
from typing import List, Optional, Sequence

from . import showing
from .report import ANSWERS, NAMES, SIDES, Line, Page, done

SPECIAL = str.maketrans({sign: "\\" + sign for sign in "\\`*_{}[]<>#|~"})


def escaped(text: str) -> str:
    return text.translate(SPECIAL)


def row_text(cells: Sequence[str]) -> str:
    return "| %s |" % " | ".join(cells)


def code(text: str) -> str:
    """A line of a program. A bar would end the cell of the table, in code too."""
    body = text.lstrip()
    return "&nbsp;" * (len(text) - len(body)) + "`%s`" % body.replace("|", "\\|")


def line_text(page: Page, copy: int, line: Optional[Line]) -> str:
    if line is None:
        return ""
    what = done(page, copy, line)
    if what is None:
        return code(line.text) + " *not run*"
    return code(line.text) + (" *%s*" % what if what else "")


def outputs(page: Page) -> List[str]:
    lines = [row_text(("output", *NAMES)), row_text(["---"] + ["---:"] * len(NAMES))]
    for cell in showing.shown_cells(page.cells):
        values = [str(value) for value in cell.values]
        if cell.broken:
            values[-1] = "**%s** ✗" % values[-1]
        lines.append(row_text((escaped(cell.name), *values)))
    return lines


def run_lines(page: Page) -> List[str]:
    """The start, and what the four programs end with."""
    if page.start is None:
        return []
    lines = ["## From one start", "", escaped(showing.start_text(page.task, page.start)), ""]
    if not page.cells:
        return lines + ["Not all four programs ended, or there is nothing to compare.", ""]
    lines += outputs(page) + [""]
    said = [text for cell in page.cells for text in showing.sentences(cell, NAMES)]
    return lines + ["- " + escaped(text) for text in said[: showing.MOST_ROWS]] + [""] * bool(said)


def program_lines(page: Page) -> List[str]:
    lines = ["## The four programs", "", row_text(("changed by", *NAMES)),
             row_text(["---"] * (1 + len(NAMES)))]
    for row in page.rows:
        cells = [line_text(page, copy, line) for copy, line in enumerate(row.lines)]
        lines.append(row_text(("**%s**" % SIDES[row.side] if row.side else "", *cells)))
    return lines


def markdown_text(page: Page) -> str:
    """The whole page."""
    answer = page.verdict.answer
    lines = ["# " + escaped(page.name), ""]
    lines += ["**%s.** %s" % (answer.value, ANSWERS[answer]), "", code(page.verdict.headline), ""]
    for detail in page.verdict.remarks:
        lines += [escaped(detail), ""]
    return "\n".join(lines + run_lines(page) + program_lines(page)) + "\n"
