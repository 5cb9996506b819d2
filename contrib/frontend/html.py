"""A page as one HTML file, without scripts and with nothing to fetch."""
from html import escape
from typing import List, Optional

from . import showing
from .report import ANSWERS, NAMES, SIDES, Line, Page, Row, done

STYLE = """
body { font: 15px/1.45 system-ui, sans-serif; color: #1f2328; margin: 2rem auto; max-width: 84rem;
  padding: 0 1.5rem; }
h1 { font-size: 1.35rem; margin: 0 0 .6rem; }
h2 { font-size: 1.05rem; margin: 1.6rem 0 .5rem; }
p { margin: .3rem 0; }
.answer { border-left: 6px solid; padding: .5rem .9rem; border-radius: 4px; }
.answer b { font-size: 1.1rem; }
.Accepted { border-color: #1a7f37; background: #e6f6ea; }
.Conflict { border-color: #cf222e; background: #fdecec; }
.Unknown { border-color: #9a6700; background: #fff6dd; }
.wide { overflow-x: auto; }
table { border-collapse: collapse; }
th { text-align: left; font-weight: 600; padding: .25rem .7rem; border-bottom: 2px solid #d0d7de; }
.outputs td, .outputs th { padding: .2rem .9rem; border-bottom: 1px solid #e4e8ec; }
.outputs td + td, .outputs th + th { text-align: right; }
.outputs td { font-family: ui-monospace, "DejaVu Sans Mono", monospace; font-size: 13px; }
.outputs tr.wrong td:last-child { background: #fbd5d5; font-weight: 700; }
.programs { width: 100%; }
.programs td { padding: .08rem .6rem; vertical-align: top; height: 1.25rem; }
.programs td + td, .programs th + th { border-left: 1px solid #dfe4e9; }
.programs tbody td + td { width: 24%; }
.line { display: flex; justify-content: space-between; align-items: baseline; gap: .8rem; }
code { font: 13px/1.5 ui-monospace, "DejaVu Sans Mono", monospace; white-space: pre-wrap;
  display: block; }
.programs code { padding-left: 2ch; text-indent: -2ch; }
.did { font-size: 12px; color: #57606a; text-align: right; white-space: nowrap; }
.unrun code { color: #9aa3ab; }
.who { font-size: 12px; color: #57606a; white-space: nowrap; }
.a { background: #f1f7ff; }
.a .changed, .a.changed { background: #d3e7ff; }
.b { background: #f0faf1; }
.b .changed, .b.changed { background: #cdeed2; }
.both { background: #f7f3fe; }
.both .changed, .both.changed { background: #e2d6fa; }
.alone { background: #fff4ec; }
.alone .changed, .alone.changed { background: #ffd5b8; }
.legend span { display: inline-block; padding: .05rem .6rem; margin: 0 .4rem .4rem 0;
  border-radius: 3px; font-size: 13px; }
"""


def line_html(page: Page, copy: int, line: Optional[Line], shade: str) -> str:
    """A cell of the table. A line that is too long goes on behind its indentation."""
    if line is None:
        return '<td class="%s"></td>' % shade
    body = line.text.lstrip()
    indent = len(line.text) - len(body)
    code = '<code style="margin-left:%dch">%s</code>' % (indent, escape(body))
    what = done(page, copy, line)
    if what is None:
        return '<td class="unrun %s" title="not run">%s</td>' % (shade, code)
    if what:
        code = '<div class="line">%s<span class="did">%s</span></div>' % (code, escape(what))
    return '<td class="%s">%s</td>' % (shade, code)


def row_html(page: Page, row: Row, first: bool) -> str:
    cells = "".join(
        line_html(page, copy, line, "changed" if changed else "")
        for copy, (line, changed) in enumerate(zip(row.lines, row.changed)))
    who = SIDES[row.side] if row.side and first else ""
    return '<tr class="%s"><td class="who">%s</td>%s</tr>' % (row.side, who, cells)


def legend_html(page: Page) -> str:
    found = {row.side for row in page.rows}
    spans = ['<span class="%s changed">changed by %s</span>' % (side, who)
             for side, who in SIDES.items() if side in found]
    return '<p class="legend">%s</p>' % "".join(spans)


def programs_html(page: Page) -> List[str]:
    head = "".join("<th>%s</th>" % name for name in NAMES)
    lines = ["<h2>The four programs</h2>", legend_html(page), '<div class="wide">',
             '<table class="programs"><thead><tr><th></th>%s</tr></thead><tbody>' % head]
    last = ""
    for row in page.rows:
        lines.append(row_html(page, row, row.side != last))
        last = row.side
    return lines + ["</tbody></table></div>"]


def run_html(page: Page) -> List[str]:
    """The start, and what the four programs end with."""
    if page.start is None:
        return []
    start = escape(showing.start_text(page.task, page.start))
    lines = ["<h2>From one start</h2>", "<p><code>%s</code></p>" % start]
    if not page.cells:
        return lines + ["<p>Not all four programs ended, or there is nothing to compare.</p>"]
    head = "".join("<th>%s</th>" % name for name in NAMES)
    lines.append('<table class="outputs"><tr><th>output</th>%s</tr>' % head)
    for cell in showing.shown_cells(page.cells):
        values = "".join("<td>%d</td>" % value for value in cell.values)
        lines.append('<tr class="%s"><td>%s</td>%s</tr>' % (
            "wrong" if cell.broken else "right", escape(cell.name), values))
    said = [text for cell in page.cells for text in showing.sentences(cell, NAMES)]
    return lines + ["</table>"] + ["<p>%s</p>" % escape(text) for text in said[:showing.MOST_ROWS]]


def answer_html(page: Page) -> str:
    answer = page.verdict.answer
    remarks = "".join("<p>%s</p>" % escape(remark) for remark in page.verdict.remarks)
    return '<div class="answer %s"><b>%s.</b> %s<p><code>%s</code></p>%s</div>' % (
        answer.value, answer.value, ANSWERS[answer], escape(page.verdict.headline), remarks)


def html_text(page: Page) -> str:
    """The whole page."""
    name = escape(page.name)
    lines = [
        "<!DOCTYPE html>",
        '<html lang="en"><head><meta charset="utf-8">',
        '<meta name="viewport" content="width=device-width, initial-scale=1">',
        "<title>%s</title><style>%s</style></head><body>" % (name, STYLE),
        "<h1>%s</h1>" % name,
        answer_html(page),
        *run_html(page),
        *programs_html(page),
        "</body></html>",
    ]
    return "\n".join(lines) + "\n"
