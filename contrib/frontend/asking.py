"""Puts four programs to `safemerge`, and tells its answer."""
import enum
import os
import subprocess
import time
from dataclasses import dataclass, field
from typing import Iterator, List, NamedTuple, Optional, Sequence, Tuple

from . import inputs, showing
from .making import Fault, checked_text, copy_texts
from .printing import task_text
from .reading import read_program, read_task, text_of
from .running import Cell, Machines, Store
from .tokens import Refusal
from .trees import COPIES, Program, Task

DRAWN_TURNS = 2_000
SHOWN_TURNS = 1_000_000
DRAWING_SECONDS = 20


class Answer(enum.Enum):
    """What is said of a merge. The worst of several is the one with the highest rank."""

    ACCEPTED = "Accepted"
    UNKNOWN = "Unknown"
    CONFLICT = "Conflict"

    @property
    def rank(self) -> int:
        return list(Answer).index(self)

    @property
    def status(self) -> int:
        """The exit status, as that of `safemerge check`."""
        return {"Accepted": 0, "Conflict": 1, "Unknown": 2}[self.value]


@dataclass
class Settings:
    """How the program is called. The trials of `check` take few turns: nothing that is accepted
    rests on them, and nested loops of many turns take hours."""

    program: str = "safemerge"
    seconds: float = 60
    turns: int = 1_000
    draws: int = 4_000
    names: Tuple[str, ...] = showing.GIT_NAMES


@dataclass
class Verdict:
    """An answer, the line that says it, what else is to be said, and of a conflict the start."""

    answer: Answer
    headline: str
    remarks: List[str] = field(default_factory=list)
    start: Optional[Store] = None

    def text(self, task: Optional[Task], names: Sequence[str]) -> str:
        """The verdict, and of a conflict what the four programs end with."""
        lines = [self.headline, *self.remarks]
        if task is not None and self.start is not None:
            lines += conflict_lines(task, self.start, names)
        return "\n".join(lines) + "\n"


def conflict_lines(task: Task, start: Store, names: Sequence[str]) -> List[str]:
    cells = Machines(task, SHOWN_TURNS).cells(start)
    if cells is None:
        return ["start: " + showing.start_text(task, start)]
    return showing.conflict_lines(task, start, cells, names)


class Unanswered(Exception):
    """Why the program gave no answer."""


@dataclass
class Version:
    """One of the four: whose it is, a name for its file, and what the file has."""

    name: str
    file: str
    data: bytes

    def program(self) -> Program:
        try:
            return read_program(text_of(self.data))
        except Refusal as refusal:
            raise Unanswered(refusal.shown("%s (%s)" % (self.file, self.name))) from refusal


class Judged(NamedTuple):
    """A verdict, and what is printed of it."""

    verdict: Verdict
    text: str


@dataclass
class Asked:
    """A task in a folder of its own, which the program is asked about."""

    task: Task
    folder: str
    settings: Settings

    def path(self, name: str) -> str:
        return os.path.join(self.folder, name)

    def call(self, *words: str) -> Tuple[int, List[str]]:
        """The status and the lines of one call."""
        status, printed = called(self.settings, words)
        return status, printed.decode("utf-8", "replace").splitlines()


def called(settings: Settings, words: Sequence[str]) -> Tuple[int, bytes]:
    """What the program prints, with its status."""
    try:
        done = subprocess.run([settings.program, *words], stdin=subprocess.DEVNULL,
                              stdout=subprocess.PIPE, timeout=settings.seconds, check=False)
    except subprocess.TimeoutExpired as late:
        raise Unanswered("no answer within %g seconds" % settings.seconds) from late
    except OSError as fault:
        raise Unanswered("%s: %s" % (settings.program, fault.strerror)) from fault
    return done.returncode, done.stdout


def judged(versions: Sequence[Version], folder: str, settings: Settings) -> Judged:
    """The verdict on base, A, B and candidate. The task and its proof are left in the folder."""
    task = None
    try:
        programs = [version.program() for version in versions]
        text = checked_text(programs)
        task = read_task(text)
        asked = asked_of(task, folder, settings)
        confirm_copies(asked, programs)
        verdict = verdict_of(asked)
    except Unanswered as why:
        verdict = not_asked(str(why))
    except Refusal as refusal:
        verdict = not_asked(refusal.message)
    except Fault as fault:
        verdict = not_asked("a fault of this tool: %s" % fault)
    return Judged(verdict, verdict.text(task, settings.names))


def not_asked(why: str) -> Verdict:
    return Verdict(Answer.UNKNOWN, "Unknown: not asked", [why])


def asked_of(task: Task, folder: str, settings: Settings) -> Asked:
    """Writes a task, and has the program read it again."""
    text = task_text(task)
    asked = Asked(task, folder, settings)
    with open(asked.path("task"), "w", encoding="ascii") as file:
        file.write(text)
    confirm_text(asked, text)
    return asked


def printed_of(asked: Asked, *options: str) -> bytes:
    """What `print` prints of the task."""
    status, printed = called(asked.settings, ["print", asked.path("task"), *options])
    if status != 0:
        words = " ".join(["safemerge print", *options])
        first = printed.decode("utf-8", "replace").strip()
        raise Unanswered("%s: status %d %s" % (words, status, first))
    return printed


def confirm_text(asked: Asked, text: str) -> None:
    """Asks the program for the task's canonical text, which has to be just what was written."""
    if printed_of(asked) != text.encode("ascii"):
        raise Fault("the program reads another task than was written")


def confirm_copies(asked: Asked, programs: Sequence[Program]) -> None:
    """Asks the program for the four filled programs, each of which has to be that of its file."""
    for copy, name, text in zip(COPIES, asked.settings.names, copy_texts(programs)):
        if printed_of(asked, "--copy", copy) != text.encode("ascii"):
            raise Fault("the program reads another copy of %s than the file has" % name)


def verdict_of(asked: Asked) -> Verdict:
    """The answer of `check`, with what can be said about it."""
    try:
        turns = str(asked.settings.turns)
        status, lines = asked.call("check", "--deeper", "--turns", turns, asked.path("task"),
                                   asked.path("proof"))
    except Unanswered as why:
        return searched(asked, "Unknown: %s" % why, [])
    first = lines[0] if lines else ""
    if status == 0 and first == "Accepted":
        return accepted(asked, lines[1:])
    if status == 1 and len(lines) == 2 and lines[1].startswith("input "):
        start = inputs.store_of(lines[1][len("input ") :])
        return Verdict(Answer.CONFLICT, first, start=start)
    if status == 2:
        remark = showing.open_text(first.split(), asked.task, asked.settings.names)
        return searched(asked, " ".join(lines[:1]), [remark] * bool(remark) + lines[1:])
    return searched(asked, "Unknown: safemerge check: status %d %s" % (status, first), [])


def accepted(asked: Asked, rest: List[str]) -> Verdict:
    """Accepted; but where no start is seen that meets the assumption, a person has to look."""
    if not rest:
        return Verdict(Answer.ACCEPTED, "Accepted")
    if any(cells is not None for _, cells in tried(asked)):
        return Verdict(Answer.ACCEPTED, "Accepted", ["%s; a drawn input does" % rest[0]])
    return Verdict(Answer.UNKNOWN, "Accepted, but %s" % rest[0],
                   ["perhaps no start meets it, and then any merge is accepted"])


def tried(asked: Asked) -> Iterator[Tuple[Store, Optional[List[Cell]]]]:
    """Drawn inputs, with what the programs end with where they meet the assumption and all end."""
    machines = Machines(asked.task, DRAWN_TURNS)
    until = time.monotonic() + DRAWING_SECONDS
    for store in inputs.drawn(asked.task, asked.settings.draws):
        yield store, machines.cells(store)
        if time.monotonic() > until:
            return


def searched(asked: Asked, headline: str, details: List[str]) -> Verdict:
    """Where the program didn't decide: a drawn input that it confirms as a conflict, if any."""
    count = ended = 0
    for store, cells in tried(asked):
        count += 1
        ended += cells is not None
        if cells and any(cell.broken for cell in cells):
            shown = confirmed(asked, store)
            if shown:
                return Verdict(Answer.CONFLICT, shown, start=store)
    remark = "of %d inputs drawn from its numbers none shows a conflict" % count
    if ended < count:
        remark += "; from %d of them all four end" % ended
    return Verdict(Answer.UNKNOWN, headline, details + [remark])


def replayed(asked: Asked, store: Store) -> Tuple[int, str]:
    """The status and the line of `replay` from an input."""
    with open(asked.path("input"), "w", encoding="ascii") as file:
        file.write(inputs.text_of(store))
    status, lines = asked.call("replay", asked.path("task"), asked.path("input"))
    return status, lines[0] if lines else ""


def confirmed(asked: Asked, store: Store) -> Optional[str]:
    """The line of `replay`, where it says that an input shows a conflict."""
    try:
        status, line = replayed(asked, store)
    except Unanswered:
        return None
    return line if status == 1 else None
