"""merge_task: from four program files to a task."""
import argparse
import sys
from typing import List, Optional

from ..making import Fault, checked_text
from ..reading import read_program, text_of
from ..tokens import Refusal
from ..trees import LETTERS, Program

REFUSED, FAULT, USAGE, UNREAD, UNWRITTEN = 3, 2, 4, 5, 8


class Words(argparse.ArgumentParser):
    """Words that are wrong end with the status that `safemerge` has for them."""

    def error(self, message: str) -> None:  # type: ignore
        self.print_usage(sys.stderr)
        self.exit(USAGE, "%s: %s\n" % (self.prog, message))


def words() -> Words:
    parser = Words(prog="merge_task", description="Prints the task of four programs.")
    for name, help_text in (("BASE", "what both sides began with"), ("A", "one side"),
                            ("B", "the other side"), ("CANDIDATE", "the merge")):
        parser.add_argument(name, help=help_text)
    parser.add_argument("-o", dest="output", metavar="TASK", help="write the task to this file")
    return parser


def program_in(path: str, letter: str) -> Optional[Program]:
    """The program that a file has. A refusal is shown with the line that it is about."""
    with open(path, "rb") as file:
        data = file.read()
    try:
        return read_program(text_of(data))
    except Refusal as refusal:
        print(refusal.shown("%s (%s)" % (path, letter)), file=sys.stderr)
        return None


def main(arguments: List[str]) -> int:
    """0 with the task; 3 where a program is refused, 2 where this tool is at fault."""
    given = words().parse_args(arguments)
    paths = (given.BASE, given.A, given.B, given.CANDIDATE)
    try:
        read = [program_in(path, letter) for path, letter in zip(paths, LETTERS)]
    except OSError as fault:
        print("%s: %s" % (fault.filename, fault.strerror), file=sys.stderr)
        return UNREAD
    programs = [program for program in read if program is not None]
    if len(programs) < 4:
        return REFUSED
    try:
        text = checked_text(programs)
    except Refusal as refusal:
        print("merge_task: %s" % refusal.message, file=sys.stderr)
        return REFUSED
    except Fault as fault:
        print("merge_task: a fault of this tool: %s" % fault, file=sys.stderr)
        return FAULT
    return written(text, given.output)


def written(text: str, path: Optional[str]) -> int:
    try:
        if path is None:
            sys.stdout.write(text)
            sys.stdout.flush()
        else:
            with open(path, "w", encoding="utf-8") as file:
                file.write(text)
    except OSError as fault:
        print("merge_task: %s" % fault.strerror, file=sys.stderr)
        return UNWRITTEN
    return 0
