"""Programs and tasks are read and printed as the program does."""
import glob
import os
import unittest

from frontend.printing import program_text, task_text
from frontend.reading import read_program, read_task, text_of
from frontend.tokens import Refusal
from frontend.trees import COPIES

from .copies import text_of_copy
from .drawing import quadruples
from .support import EXAMPLES, SAFEMERGE, Folder, called, needs_program

FRONT = "var x, y;\narray a;\noutput x;\n"


class Reading(unittest.TestCase):
    def test_bare_statements_and_a_shared_block_are_one_program(self) -> None:
        statements = "if (x < 3 || ![y == 1]) { a[x] = -(x + 1) * 2; } else { skip; }\n"
        bare = read_program(FRONT + statements)
        self.assertEqual(bare, read_program(FRONT + "shared {\n" + statements + "}"))
        self.assertEqual(program_text(bare), (
            "var x;\nvar y;\narray a;\noutput x;\nshared {\n"
            "  if (x < 3 || [!y == 1]) {\n    a[x] = (-(x + 1)) * 2;\n"
            "  } else {\n    skip;\n  }\n}\n"))

    def test_what_is_printed_reads_back(self) -> None:
        for programs in quadruples(100):
            for program in programs:
                text = program_text(program)
                self.assertEqual(read_program(text), program)
                self.assertEqual(program_text(read_program(text)), text)

    def test_a_refusal_names_the_line(self) -> None:
        deep = "x = " + "(" * 65 + "1" + ")" * 65 + ";"
        cases = [
            ("x = 1\ny = 2;", 5, 1, "expected `;`, found `y`"),
            ("x = y / 2;", 4, 7, "no token begins with '/'"),
            ("x = z;", 4, 5, "`z` isn't declared"),
            ("z = 1;", 4, 1, "`z` isn't declared"),
            ("a = 1;", 4, 1, "`a` is declared as `array`"),
            ("x = y[1];", 4, 5, "`y` is declared as `var`"),
            ("?1;", 4, 1, "a hole can't stand here"),
            ("if (x == 1) { }", 4, 16, "expected `else`, found the end of the text"),
            ("if (x) { } else { }", 4, 6, "expected a comparison, found `)`"),
            ("x = 1a;", 4, 5, "a word begins with a letter or `_`"),
            ("x = %d;" % 2**127, 4, 5, "a number of more than 2^127 - 1"),
            ("x = 1; }", 4, 8, "expected a statement, found `}`"),
            (deep, 4, 69, "more than 64 of ( [ { are open"),
            ("x = 1" + " + 1" * 64 + ";", 4, 259, "more than 63 operators in one chain"),
            ("shared { } base { }", 4, 12, "expected the end of the text, found `base`"),
        ]
        for statements, line, column, message in cases:
            with self.subTest(statements), self.assertRaises(Refusal) as caught:
                read_program(FRONT + statements)
            found = caught.exception
            self.assertEqual((found.line, found.column, found.message), (line, column, message))

    def test_a_front_is_refused(self) -> None:
        cases = [
            ("", "expected `var`, `array` or `output`, found the end of the text"),
            ("var x, x; output x;", "`x` is declared twice"),
            ("var x; array x; output x;", "`x` is declared twice"),
            ("var x; output x, x;", "`x` is an output twice"),
            ("var x; output y;", "`y` isn't declared"),
            ("var x; output x; assume y == 1;", "`y` isn't declared"),
            ("var while; output x;", "expected a name, found `while`"),
            ("var x%s; output x;" % ", x".join(map(str, range(201))),
             "more than 200 names are declared"),
        ]
        for text, message in cases:
            with self.subTest(text[:40]), self.assertRaises(Refusal) as caught:
                read_program(text)
            self.assertEqual(caught.exception.message, message)

    def test_the_line_is_shown_with_a_caret(self) -> None:
        with self.assertRaises(Refusal) as caught:
            read_program(FRONT + "\tx = y +;")
        self.assertEqual(caught.exception.shown("limits.prog (A)"), (
            "limits.prog (A):4:9: expected an expression, found `;`\n  \tx = y +;\n  \t       ^"))

    def test_comments_may_hold_any_bytes(self) -> None:
        program = read_program(text_of(b"var x; # \xff\xc3\xa9\noutput x;\n# end"))
        self.assertEqual(program.body, ())


@needs_program
class Canonical(Folder):
    def test_tasks_are_printed_as_the_program_does(self) -> None:
        paths = glob.glob(os.path.join(EXAMPLES, "*", "*.task"))
        self.assertGreater(len(paths), 10)
        for path in paths:
            with self.subTest(path), open(path, encoding="utf-8") as file:
                printed = called([str(SAFEMERGE), "print", path])
                self.assertEqual((0, task_text(read_task(file.read()))), printed)

    def test_filled_programs_are_printed_as_the_program_does(self) -> None:
        for name in ("loop_edits_proved/trades.task", "right_under_an_assumption/transfer.task"):
            path = os.path.join(EXAMPLES, name)
            for copy in COPIES:
                with self.subTest(name, copy=copy):
                    printed = called([str(SAFEMERGE), "print", path, "--copy", copy])
                    self.assertEqual((0, text_of_copy(path, copy, "")), printed)

    def test_what_is_refused_is_refused_by_the_program(self) -> None:
        task = "var x; output x; shared { %s } base { } variant_a { } variant_b { } candidate { }"
        for statements in ("", "x = -x;", "x = --x;", "x = (x;", "x = 1 x = 2;", "x = x[1];",
                           "while (x < 1) { }", "while [x < 1] { }", "if (x == 1) { x = 2; }",
                           "if (!x == 1) { } else { }", "if (x) { } else { }", "x = 007;"):
            text = task % statements
            try:
                expected = (0, task_text(read_task(text)))
            except Refusal:
                expected = (3, "")
            status, printed = called([str(SAFEMERGE), "print", self.write("t", text)])
            self.assertEqual((status, printed if status == 0 else ""), expected, text)
