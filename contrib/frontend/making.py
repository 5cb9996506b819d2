"""From four programs to a task."""
from dataclasses import replace
from typing import List, Sequence

from . import trees
from .aligning import shared_and_fillings
from .joining import joined_front
from .printing import program_text, task_text
from .reading import read_task
from .tokens import Refusal
from .trees import Program, Task


class Fault(Exception):
    """A task that isn't of the four programs: a fault of this tool, and of no file."""


def task_of(programs: Sequence[Program]) -> Task:
    """The task of a base, two variants and a candidate."""
    front = joined_front([program.front for program in programs])
    shared, fillings = shared_and_fillings([program.body for program in programs])
    if len(fillings[0]) > trees.LAST_HOLE:
        raise Refusal("the four versions differ in more than 999 places")
    return Task(front, shared, fillings)


def checked_text(programs: Sequence[Program]) -> str:
    """The text of the task of four programs. It is read again, filled and compared with them."""
    text = task_text(task_of(programs))
    if len(text) > trees.LARGEST_TEXT:
        raise Refusal("the task has more than 1,048,576 bytes")
    check_text(text, programs)
    return text


def copy_texts(programs: Sequence[Program]) -> List[str]:
    """What `safemerge print --copy` has to print of the task of four programs: the statements of
    each, behind the declarations and outputs of all. An assumption stands in no program."""
    front = replace(joined_front([program.front for program in programs]), assumed=None)
    return [program_text(Program(front, program.body)) for program in programs]


def check_text(text: str, programs: Sequence[Program]) -> None:
    """Fails where a task isn't that of the four programs."""
    try:
        task = read_task(text)
    except Refusal as refusal:
        raise Fault(refusal.shown("the task that was made")) from refusal
    for letter, program, made in zip(trees.LETTERS, programs, task.programs()):
        if made.body != program.body:
            raise Fault("the task that was made has another program of %s" % letter)
        for name, sort in program.front.sorts.items():
            if made.front.sorts.get(name) != sort:
                raise Fault("the task that was made lacks `%s` of %s" % (name, letter))
        if not set(program.front.outputs) <= set(made.front.outputs):
            raise Fault("the task that was made lacks an output of %s" % letter)
        if made.front.assumed != program.front.assumed:
            raise Fault("the task that was made doesn't assume what %s does" % letter)
