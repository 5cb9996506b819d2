"""merge_report: a page on a task, for a reviewer."""
import os
import sys
import tempfile
from typing import List, Optional, Tuple

from .. import inputs
from ..asking import Unanswered, Verdict, asked_of, not_asked, replayed, verdict_of
from ..git import settings_of
from ..html import html_text
from ..making import Fault
from ..markdown import markdown_text
from ..reading import read_task, text_of
from ..report import NAMES, Page, page_of
from ..running import Store
from ..tokens import Refusal
from ..trees import Task
from .merge_task import REFUSED, UNREAD, Words, written


def words() -> Words:
    parser = Words(prog="merge_report", description=(
        "Shows the four programs of a task beside each other, with the answer on it. The page is"
        " printed as Markdown, or written to the files that are named."))
    parser.add_argument("TASK")
    parser.add_argument("INPUT", nargs="?", help="where the programs start, as for `replay`")
    parser.add_argument("--html", metavar="FILE", help="write it as one HTML file")
    parser.add_argument("--markdown", metavar="FILE", help="write it as Markdown")
    return parser


def contents(path: str) -> str:
    with open(path, "rb") as file:
        return text_of(file.read())


def asked(task: Task, start: Optional[Store]) -> Tuple[Verdict, Optional[Store]]:
    """The answer on a task, and a start to show: the one that is given, else that of a conflict."""
    settings = settings_of()
    settings.names = NAMES
    with tempfile.TemporaryDirectory(prefix="safemerge-") as folder:
        try:
            question = asked_of(task, folder, settings)
            verdict = verdict_of(question)
            if start is not None:
                verdict.remarks.append("From the given start: %s" % replayed(question, start)[1])
        except (Unanswered, Fault) as why:
            verdict = not_asked(str(why))
    return verdict, verdict.start if start is None else start


def page_on(task_path: str, input_path: Optional[str]) -> Page:
    task = read_task(contents(task_path))
    start = None if input_path is None else inputs.store_of(contents(input_path))
    verdict, start = asked(task, start)
    return page_of(os.path.basename(task_path), task, verdict, start)


def main(arguments: List[str]) -> int:
    """0 with the page, whatever it says."""
    given = words().parse_args(arguments)
    try:
        page = page_on(given.TASK, given.INPUT)
    except OSError as fault:
        print("%s: %s" % (fault.filename, fault.strerror), file=sys.stderr)
        return UNREAD
    except Refusal as refusal:
        print(refusal.shown(given.TASK), file=sys.stderr)
        return REFUSED
    except ValueError as fault:
        print("%s: %s" % (given.INPUT, fault), file=sys.stderr)
        return REFUSED
    status = 0
    if given.html:
        status = written(html_text(page), given.html)
    if given.markdown or not given.html:
        status = written(markdown_text(page), given.markdown) or status
    return status
