"""What docs/language.md and the manual pages say of the language is what is read."""
import os
import re
import shutil
import unittest
from typing import List

from frontend.reading import RESERVED, read_task
from frontend.tokens import Refusal

from .support import SAFEMERGE, TOP, Folder, called, example, needs_program

TASK = ("var x, y, z, flag;\narray t;\noutput x;\nshared {\n%s\n}\n"
        "base { }\nvariant_a { }\nvariant_b { }\ncandidate { }\n")


def page(name: str) -> str:
    with open(os.path.join(TOP, "docs", name), encoding="utf-8") as file:
        return file.read()


def code_in(cell: str) -> List[str]:
    return [code.replace(r"\|", "|") for code in re.findall("`([^`]*)`", cell)]


def rows(heading: str) -> List[List[str]]:
    """The rows of the table of a section, without its head."""
    section = page("language.md").split("\n## %s\n" % heading)[1].split("\n## ")[0]
    lines = [line for line in section.splitlines() if line.startswith("|")]
    return [re.split(r"(?<!\\)\|", line)[1:-1] for line in lines[2:]]


def is_read(statement: str) -> bool:
    try:
        read_task(TASK % statement)
    except Refusal:
        return False
    return True


def grammar(text: str) -> str:
    """The lines of the grammar, as words between single spaces."""
    found = re.search(r"^ *Task +=.*?^ *Cmp +=[^\n]*$", text, re.MULTILINE | re.DOTALL)
    return " ".join(found.group().replace("\\-", "-").split()) if found else ""


class Language(unittest.TestCase):
    def test_what_surprises(self) -> None:
        found = rows("What surprises")
        self.assertGreater(len(found), 15)
        for wrong, right, _ in found:
            self.assertEqual([is_read(code) for code in code_in(wrong)], [False], wrong)
            self.assertTrue(all(is_read(code) for code in code_in(right)), right)

    def test_statements(self) -> None:
        cells = {row[0].strip(): code_in(row[1])
                 for row in rows("Statements, numbers and conditions")}
        for statement in cells["statement"]:
            self.assertTrue(is_read("y = 0; " + statement.replace("..", "").replace("[i]", "[y]")))
        for number in cells["number"][:8]:
            self.assertTrue(is_read("x = %s;" % number.replace("[i]", "[y]")), number)
        self.assertEqual(set(cells["name"][2].split()), RESERVED)

    def test_the_whole_task_is_that_of_the_example(self) -> None:
        indented = "".join("    %s\n" % line for line in example(
            "accumulator_changed_reader_added/cart.task").splitlines())
        answer = "".join("    %s\n" % line for line in (
            "$ " + example("accumulator_changed_reader_added/command").strip(),
            *example("accumulator_changed_reader_added/output").splitlines()))
        self.assertIn("\n\n%s\n%s\n" % (indented, answer), page("language.md"))

    def test_where_a_text_is_refused(self) -> None:
        block = re.findall(r"(?:^    .*\n)+", page("language.md"), re.MULTILINE)[-1]
        command, *printed = [line[4:] for line in block.splitlines()]
        self.assertEqual(called(["sh", "-c", command[2:]])[1].splitlines(), printed)


@needs_program
class Program(Folder):
    def test_what_surprises(self) -> None:
        for wrong, right, _ in rows("What surprises"):
            for cell, expected in ((wrong, 3), (right, 0)):
                for code in code_in(cell):
                    task = self.write("t", TASK % code)
                    self.assertEqual(self.call(str(SAFEMERGE), "print", task)[0], expected, code)


class Manual(Folder):
    def test_the_grammar_is_that_of_the_formats(self) -> None:
        self.assertIn('CAtom = "true"', grammar(page("formats.md")))
        self.assertEqual(grammar(page("safemerge-task.5")), grammar(page("formats.md")))

    def test_the_task_is_read(self) -> None:
        task, _, words = re.findall(r"^\.EX\n(.*?)^\.EE$", page("safemerge-task.5"),
                                    re.MULTILINE | re.DOTALL)[:3]
        self.assertEqual(len(read_task(task).fillings), 4)
        self.assertEqual(set(words.split()), RESERVED)

    @unittest.skipUnless(shutil.which("man") and shutil.which("groff"), "there is no man")
    def test_the_pages_have_no_faults(self) -> None:
        for name in ("safemerge.1", "safemerge-task.5"):
            faults = self.call("sh", "-c", 'man --warnings -l "$1" 2>&1 >pages', "sh",
                               os.path.join(TOP, "docs", name), MANWIDTH="80")[1]
            self.assertEqual(faults, "", name)

    @unittest.skipUnless(shutil.which("make"), "there is no make")
    def test_the_pages_are_installed_and_go(self) -> None:
        words = ["make", "-s", "DESTDIR=" + self.folder, "PREFIX=/usr"]
        self.assertEqual(called(words + ["install-man"]), (0, ""))
        for name in ("safemerge.1", "safemerge-task.5"):
            installed = self.read("usr/share/man/man%s/%s" % (name[-1], name))
            self.assertEqual(installed, page(name))
        self.assertEqual(called(words + ["uninstall"]), (0, ""))
        self.assertEqual([files for _, _, files in os.walk(self.folder) if files], [])
