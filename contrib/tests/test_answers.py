"""The answers on given tasks, and on the tasks that are made of their four programs.

answers.txt has a line for each task of examples/: the task, the answer on it as it is given, and
the answer on the made one. The given answers are the program's, and the made ones may only
become better: `Unknown` may become another.
"""
import glob
import os
from typing import Dict, Tuple

from frontend.making import checked_text
from frontend.reading import read_task

from .support import EXAMPLES, SAFEMERGE, Folder, example, needs_program

TABLE = os.path.join(os.path.dirname(os.path.abspath(__file__)), "answers.txt")


def table() -> Dict[str, Tuple[str, str]]:
    with open(TABLE, encoding="ascii") as file:
        rows = [line.split() for line in file if not line.startswith("#")]
    return {name: (given, made) for name, given, made in rows}


@needs_program
class Answers(Folder):
    def answer(self, path: str) -> str:
        status, printed = self.call(str(SAFEMERGE), "check", path, os.devnull)
        self.assertIn(status, (0, 1, 2), printed)
        return printed.split()[0]

    def test_each_example_stands_in_the_table(self) -> None:
        paths = glob.glob(os.path.join(EXAMPLES, "*", "*.task"))
        self.assertEqual(sorted(os.path.relpath(path, EXAMPLES) for path in paths), list(table()))

    def test_made_tasks_have_the_given_answers(self) -> None:
        better = []
        for name, (given, made) in table().items():
            with self.subTest(name):
                path = os.path.join(EXAMPLES, name)
                self.assertEqual(self.answer(path), given)
                programs = read_task(example(name)).programs()
                found = self.answer(self.write("made.task", checked_text(programs)))
                if found != made:
                    self.assertEqual(made, "Unknown", "was %s, is %s" % (made, found))
                    better.append(name)
                # both are on the same programs, so one can't accept what the other refutes
                self.assertLessEqual(len({given, found} - {"Unknown"}), 1)
        if better:
            print("better than in answers.txt: " + " ".join(better))
