"""What is shared of four programs, and where the holes are."""
import functools
import itertools
import random
import time
import unittest
from typing import Sequence

from frontend import columns
from frontend.columns import Catalogue, columns_of
from frontend.making import task_of
from frontend.printing import block_lines
from frontend.reading import read_program

FRONT = "var i, n, x, y, z;\narray a;\noutput x, y;\n"


def shared_text(*bodies: str) -> str:
    """The shared program of four, in one line, with what stands in the holes behind it."""
    task = task_of([read_program(FRONT + body) for body in bodies])
    parts = [" ".join(line.strip() for line in block_lines(task.shared, ""))]
    for number in task.fillings[0]:
        fills = [" ".join(line.strip() for line in block_lines(filling[number], ""))
                 for filling in task.fillings]
        parts.append("%d: %s" % (number, " | ".join(fills)))
    return "\n".join(parts)


def score_of(entries: Sequence[columns.Entry], catalogue: Catalogue) -> int:
    return sum(catalogue.score(entry) for entry in entries)


def all_ways(lists: Sequence[Sequence[int]], catalogue: Catalogue) -> int:
    """The best score of all ways to set lists side by side, from the front."""
    @functools.lru_cache(maxsize=None)
    def best(places: Sequence[int]) -> int:
        top = 0
        for mask in itertools.product((0, 1), repeat=4):
            heads = [part[place : place + bit] for part, place, bit in zip(lists, places, mask)]
            kinds = {catalogue.kinds[head[0]] for head in heads if head}
            if sum(map(len, heads)) == sum(mask) and len(kinds) == 1:
                entry = tuple(head[0] if head else columns.NONE for head in heads)
                rest = tuple(place + bit for place, bit in zip(places, mask))
                top = max(top, catalogue.score(entry) + best(rest))
        return top

    return best((0, 0, 0, 0))


class Holes(unittest.TestCase):
    def test_each_side_has_its_own_hole(self) -> None:
        self.assertEqual(
            shared_text("x = 1; y = 1;", "x = 2; y = 1;", "x = 1; y = 2;", "x = 2; y = 2;"),
            "?1; ?2;\n1: x = 1; | x = 2; | x = 1; | x = 2;\n2: y = 1; | y = 1; | y = 2; | y = 2;")

    def test_one_loop_is_gone_into(self) -> None:
        loop = "while (i < n) { %s i = i + 1; }"
        self.assertEqual(
            shared_text(*(loop % body for body in ("", "x = 1;", "y = 1;", "x = 1; y = 1;"))),
            "while (i < n) { ?1; ?2; i = i + 1; }\n"
            "1:  | x = 1; |  | x = 1;\n2:  |  | y = 1; | y = 1;")

    def test_another_guard_is_a_hole(self) -> None:
        loop = "while (i %s n) { i = i + 1; } x = 1;"
        self.assertEqual(
            shared_text(*(loop % sign for sign in ("<", "<=", "<", "<="))),
            "?1; x = 1;\n1: while (i < n) { i = i + 1; } | while (i <= n) { i = i + 1; }"
            " | while (i < n) { i = i + 1; } | while (i <= n) { i = i + 1; }")

    def test_wrapped_code_is_in_one_hole(self) -> None:
        wrapped = "if (n > 0) { x = 1; } else { }"
        self.assertEqual(
            shared_text("x = 1; y = 1;", wrapped + " y = 1;", "x = 1; y = 2;", wrapped + " y = 2;"),
            "?1; ?2;\n1: x = 1; | %s | x = 1; | %s\n2: y = 1; | y = 1; | y = 2; | y = 2;" % (
                wrapped, wrapped))

    def test_code_that_left_a_loop_is_in_one_hole(self) -> None:
        inside = "while (i < n) { x = n; i = i + 1; }"
        outside = "x = n; while (i < n) { i = i + 1; }"
        self.assertEqual(
            shared_text(inside, outside, inside, outside),
            "?1;\n1: %s | %s | %s | %s" % (inside, outside, inside, outside))

    def test_code_that_moved_past_shared_code_stays_in_two_holes(self) -> None:
        before, after = "x = 1; y = 2; z = 3;", "y = 2; z = 3; x = 1;"
        self.assertEqual(
            shared_text(before, after, before, after),
            "?1; y = 2; z = 3; ?2;\n1: x = 1; |  | x = 1; | \n2:  | x = 1; |  | x = 1;")

    def test_two_added_loops_are_not_set_beside_each_other(self) -> None:
        one = "i = 0; while (i < n) { x = x + 1; i = i + 1; }"
        two = "i = 0; while (i < n) { y = y + 1; i = i + 1; }"
        self.assertEqual(
            shared_text("", one, two, one + two),
            "?1; ?2;\n1:  | %s |  | %s\n2:  |  | %s | %s" % (one, one, two, two))

    def test_equal_programs_have_no_hole(self) -> None:
        body = "x = 1; if (x < n) { y = 1; } else { }"
        self.assertEqual(shared_text(*[body] * 4), "x = 1; if (x < n) { y = 1; } else { }")


class Columns(unittest.TestCase):
    def test_no_way_is_better(self) -> None:
        draw = random.Random(1)
        statements = [read_program(FRONT + text).body[0] for text in (
            "x = 1;", "x = 2;", "y = 1;", "skip;", "if (i < n) { x = 1; } else { }",
            "if (i < n) { y = 1; } else { }", "while (i < n) { x = 1; }")]
        for _ in range(100):
            catalogue = Catalogue()
            lists = [[catalogue.number(draw.choice(statements)) for _ in range(draw.randrange(4))]
                     for _ in range(4)]
            entries = columns.exact_entries(lists, catalogue)
            self.assertEqual(score_of(entries, catalogue), all_ways(lists, catalogue))

    def test_every_copy_is_kept(self) -> None:
        draw = random.Random(2)
        ways = (columns.exact_entries, columns.entries_of, columns.middle_entries,
                columns.entries_in_turn)
        statements = [read_program(FRONT + "x = %d;" % k).body[0] for k in range(6)]
        for _ in range(200):
            catalogue = Catalogue()
            lists = [[catalogue.number(draw.choice(statements)) for _ in range(draw.randrange(7))]
                     for _ in range(4)]
            for way in ways:
                entries = way(lists, catalogue)
                kept = [[entry[copy] for entry in entries if entry[copy] != columns.NONE]
                        for copy in range(4)]
                self.assertEqual(kept, lists)

    def test_long_programs_take_seconds(self) -> None:
        draw = random.Random(3)
        base = ["x = y + %d;" % draw.randrange(500) for _ in range(3000)]
        bodies = []
        for _ in range(4):
            lines = list(base)
            for _ in range(30):
                lines[draw.randrange(3000)] = "y = x * %d;" % draw.randrange(500)
            bodies.append(read_program(FRONT + "\n".join(lines)).body)
        began = time.monotonic()
        found = columns_of(bodies, Catalogue())
        self.assertLess(time.monotonic() - began, 30)
        shared = [column for column in found if len(set(column)) == 1]
        self.assertGreater(len(shared), 2800)
