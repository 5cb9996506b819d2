"""A made task is of the four programs, and a changed one is found out."""
import random
import unittest
from dataclasses import replace
from typing import Iterator, Tuple

from frontend import trees
from frontend.making import Fault, check_text, checked_text, task_of
from frontend.printing import task_text
from frontend.reading import read_program
from frontend.tokens import Refusal
from frontend.trees import Task

from .drawing import quadruples
from .support import SAFEMERGE, Folder, example, needs_program, script

PROGRAM = "var x, y;\noutput x;\n"


class RoundTrips(unittest.TestCase):
    def test_the_filled_task_is_the_four_programs(self) -> None:
        for programs in quadruples(300):
            # checked_text reads the text again and compares; that it is the four is said once more
            task = task_of(programs)
            self.assertEqual([p.body for p in task.programs()], [p.body for p in programs])
            self.assertEqual(checked_text(programs), task_text(task))

    def test_holes_are_numbered_in_the_order_of_the_text(self) -> None:
        for programs in quadruples(100):
            task = task_of(programs)
            numbers = [statement.number for statement in trees.all_statements(task.shared)
                       if isinstance(statement, trees.Hole)]
            self.assertEqual(numbers, list(range(1, len(numbers) + 1)))


class Fronts(unittest.TestCase):
    def joined(self, *texts: str) -> str:
        return checked_text([read_program(text) for text in texts])

    def test_declarations_and_outputs_are_joined(self) -> None:
        text = self.joined(
            "var x;\noutput x;\nx = 1;", "var x, a;\noutput x;\nx = 1;",
            "array b;\nvar x;\noutput b;\nx = 1;", "var c, x;\noutput c;\nx = 1;")
        self.assertTrue(text.startswith(
            "var x;\nvar a;\narray b;\nvar c;\noutput x, b, c;\nshared {\n  x = 1;\n}\n"), text)

    def test_a_name_that_its_own_version_dropped_is_refused(self) -> None:
        # A drops a declaration and B adds a use: the joined front would declare the name
        with self.assertRaises(Refusal) as caught:
            self.joined("var x, y;\noutput x;\n", "var x;\noutput x;\n",
                        "var x, y;\noutput x;\nx = y;", "var x;\noutput x;\nx = y;")
        self.assertEqual(caught.exception.message, "`y` isn't declared")

    def test_two_sorts_of_one_name_are_refused(self) -> None:
        with self.assertRaises(Refusal) as caught:
            self.joined(PROGRAM, PROGRAM, "var x;\narray y;\noutput x;\n", PROGRAM)
        self.assertEqual(caught.exception.message,
                         "B declares `y` as `array`, another version as `var`")

    def test_assumptions_that_differ_are_refused(self) -> None:
        one, two = PROGRAM + "assume x < y;\n", PROGRAM + "assume x <= y;\n"
        self.assertIn("assume x < y;", self.joined(one, one, one, one))
        for texts, letter in (((one, two, one, one), "A"), ((one, one, one, PROGRAM), "candidate"),
                              ((PROGRAM, PROGRAM, two, PROGRAM), "B")):
            with self.assertRaises(Refusal) as caught:
                self.joined(*texts)
            self.assertEqual(caught.exception.message,
                             "%s doesn't assume what the base does" % letter)

    def test_too_many_names_or_holes_are_refused(self) -> None:
        many = ["var x;\nvar %s;\noutput x;\n" % ", ".join("%s%d" % (letter, k) for k in range(60))
                for letter in "oabm"]
        with self.assertRaises(Refusal) as caught:
            self.joined(*many)
        self.assertIn("more than 200 names", caught.exception.message)
        long = ["\n".join("x = %d;\ny = %d;" % (k + copy * 5000, k) for k in range(1001))
                for copy in range(4)]
        with self.assertRaises(Refusal) as caught:
            self.joined(*(PROGRAM + text for text in long))
        self.assertIn("more than 999 places", caught.exception.message)


def changed(task: Task, draw: random.Random) -> Iterator[Tuple[str, Task]]:
    """Tasks that are not that of the four programs."""
    one = trees.Assign("x", trees.Number(10**9))
    yield "a statement is added", replace(task, shared=task.shared + (one,))
    if task.shared:
        place = draw.randrange(len(task.shared))
        rest = task.shared[:place] + (trees.Skip(),) + task.shared[place + 1 :]
        if task.shared[place] != trees.Skip():
            yield "a statement is another", replace(task, shared=rest)
    base, a, b, candidate = task.fillings
    if a != b:
        yield "the sides are exchanged", replace(task, fillings=(base, b, a, candidate))
    if base != candidate:
        yield "the candidate is the base", replace(task, fillings=(base, a, b, base))
    for number, part in candidate.items():
        if part:
            less = {**candidate, number: part[:-1]}
            yield "a filling is cut", replace(task, fillings=(base, a, b, less))
            break
    front = task.front
    fewer = {name: sort for name, sort in front.sorts.items() if name != "b"}
    yield "a declaration is dropped", replace(task, front=replace(front, sorts=fewer))
    other = {**front.sorts, "n": "array"}
    yield "a name has another sort", replace(task, front=replace(front, sorts=other))
    yield "an output is dropped", replace(task, front=replace(front, outputs=front.outputs[1:]))
    yield "something is assumed", replace(task, front=replace(front, assumed=trees.Truth(True)))


class MustFail(unittest.TestCase):
    def test_a_changed_task_is_found_out(self) -> None:
        draw = random.Random(5)
        seen = set()
        for programs in quadruples(60):
            for name, task in changed(task_of(programs), draw):
                seen.add(name)
                with self.subTest(name), self.assertRaises(Fault):
                    check_text(task_text(task), programs)
        self.assertEqual(len(seen), 9)


class Command(Folder):
    def four(self) -> Tuple[str, ...]:
        texts = [example("git_merges_cleanly/%s.prog" % name) for name in ("base", "a", "b")]
        texts.append(texts[1].replace("used = low", "used = limit"))
        return tuple(self.write("%d.prog" % k, text) for k, text in enumerate(texts))

    def test_it_prints_the_task_or_writes_it(self) -> None:
        status, text = self.call(script("merge_task"), *self.four())
        self.assertEqual(status, 0)
        self.assertIn("shared {\n  ?1;\n  warned = 0;\n  ?2;\n}\n", text)
        written = self.call(script("merge_task"), "-o", "out.task", *self.four())
        self.assertEqual((written, self.read("out.task")), ((0, ""), text))

    def test_a_fault_in_a_file_is_shown_in_its_place(self) -> None:
        four = self.four()
        self.write("2.prog", "var x;\noutput x;\nx = limit;\n")
        self.assertEqual(self.call(script("merge_task"), *four), (
            3, "%s (B):3:5: `limit` isn't declared\n  x = limit;\n      ^\n" % four[2]))

    def test_other_faults_have_their_status(self) -> None:
        four = self.four()
        self.assertEqual(self.call(script("merge_task"), *four[:3])[0], 4)
        self.assertEqual(self.call(script("merge_task"), *four[:3], "none.prog"),
                         (5, "none.prog: No such file or directory\n"))


@needs_program
class Canonical(Folder):
    def test_the_program_prints_what_was_made(self) -> None:
        for number, programs in enumerate(quadruples(100)):
            path = self.write("t", checked_text(programs))
            self.assertEqual(self.call(str(SAFEMERGE), "print", path), (0, self.read("t")), number)
