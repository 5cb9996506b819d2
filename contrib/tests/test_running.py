"""What the interpreter shows is what the program says."""
import unittest

from frontend import inputs
from frontend.making import checked_text
from frontend.reading import read_program, read_task
from frontend.running import Machine, Machines, Unended, broken_clauses

from .drawing import quadruples
from .support import SAFEMERGE, Folder, example, needs_program


class Running(unittest.TestCase):
    def test_a_program_is_run(self) -> None:
        program = read_program(
            "var i, n, x;\narray a;\noutput x;\n"
            "while (i < n) { a[i] = i * i - 1; i = i + 1; }\n"
            "if (a[2] == 3 && !i == 4 || false) { x = a[1] - -a[0]; } else { x = a[9]; skip; }\n"
            "if (n == 3 && n == 4 || !n == 3) { x = 9; } else { }")
        told = []
        end = Machine(program, 10, lambda number, value: told.append((number, value))).run({"n": 3})
        self.assertEqual(end, {"i": 3, "n": 3, "x": -1, "a": {0: -1, 1: 0, 2: 3}})
        self.assertEqual(told[:4], [(0, 1), (1, -1), (2, 1), (0, 1)])
        self.assertEqual(told[-4:], [(0, 0), (3, 1), (4, -1), (7, 0)])

    def test_runs_that_do_not_end_are_stopped(self) -> None:
        head = "var x;\noutput x;\n"
        for body in ("while (true) { skip; }", "x = 2; while (x > 0) { x = x * x; }"):
            with self.subTest(body), self.assertRaises(Unended):
                Machine(read_program(head + body), 1000).run({})

    def test_the_clauses_of_the_condition(self) -> None:
        cases = [((1, 1, 1, 1), ()), ((1, 2, 1, 2), ()), ((1, 1, 2, 2), ()), ((1, 2, 2, 2), ()),
                 ((1, 2, 1, 1), (1,)), ((1, 1, 2, 1), (2,)), ((1, 1, 1, 2), (3,)),
                 ((1, 2, 3, 2), (2,)), ((1, 2, 3, 3), (1,)), ((1, 2, 3, 1), (1, 2)),
                 ((1, 2, 2, 1), (1, 2))]
        for values, broken in cases:
            self.assertEqual(broken_clauses(*values), broken, values)

    def test_an_input_is_written_and_read(self) -> None:
        text = '{"a":{"-1":"5","2":"7"},"x":"-3"}'
        self.assertEqual(inputs.store_of(text), {"a": {-1: 5, 2: 7}, "x": -3})
        self.assertEqual(inputs.text_of(inputs.store_of(text)), text)
        self.assertEqual(inputs.store_of('{"x": 4}'), {"x": 4})

    def test_inputs_are_drawn_from_the_numbers(self) -> None:
        task = read_task(example("inputs_from_literals/requests.task"))
        self.assertLessEqual({-101, -100, -99, 0, 1, 99, 100, 101}, set(inputs.literals_of(task)))
        machines = Machines(task, 100)
        broken = [store for store in inputs.drawn(task, 4000)
                  if any(cell.broken for cell in machines.cells(store) or ())]
        self.assertGreater(len(broken), 20)


@needs_program
class Replayed(Folder):
    def test_replay_says_the_same(self) -> None:
        seen = set()
        for programs in quadruples(40):
            path = self.write("t", checked_text(programs))
            task = read_task(self.read("t"))
            machines = Machines(task, 100)
            for store in list(inputs.drawn(task, 100))[::25]:
                cells = machines.cells(store)
                self.write("in", inputs.text_of(store))
                status, said = self.call(str(SAFEMERGE), "replay", "--turns", "100", path, "in")
                word = said.split()[0]
                if cells is None or word == "Beyond":
                    self.assertIn(word, ("OutOfTurns", "Beyond", "Unmet"))
                    continue
                wrong = next((cell for cell in cells if cell.broken), None)
                expected = "Holds\n" if wrong is None else "Conflict cell %s clause %d\n" % (
                    wrong.name, wrong.broken[0])
                self.assertEqual((status, said), (0 if wrong is None else 1, expected))
                seen.add(word)
        self.assertEqual(seen, {"Holds", "Conflict"})
