"""The page for a reviewer."""
import os
import re
from html.parser import HTMLParser
from typing import List, Optional, Tuple

from frontend.asking import not_asked
from frontend.html import html_text
from frontend.markdown import markdown_text
from frontend.making import task_of
from frontend.printing import block_lines
from frontend.reading import read_task
from frontend.report import done, page_of

from .drawing import quadruples
from .support import EXAMPLES, Folder, example, needs_program, script

CART = "accumulator_changed_reader_added/cart.task"
INPUT = '{"n":3,"price":{"0":20,"1":15,"2":10},"shipping":{"0":2,"1":2,"2":2}}'
VOID = ("meta",)


class Reader(HTMLParser):
    """What stands in a page: its tags, its texts, and that each tag is closed."""

    def __init__(self) -> None:
        super().__init__()
        self.open: List[str] = []
        self.tags: List[str] = []
        self.words: List[str] = []
        self.links: List[str] = []

    def handle_starttag(self, tag: str, attrs: List[Tuple[str, Optional[str]]]) -> None:
        self.tags.append(tag)
        self.links += [str(value) for name, value in attrs if name in ("src", "href")]
        if tag not in VOID:
            self.open.append(tag)

    def handle_endtag(self, tag: str) -> None:
        assert self.open.pop() == tag

    def handle_data(self, data: str) -> None:
        self.words.append(data)


def read(text: str) -> Reader:
    reader = Reader()
    reader.feed(text)
    reader.close()
    return reader


class Pages(Folder):
    def test_each_column_is_its_program(self) -> None:
        for programs in quadruples(60):
            task = task_of(programs)
            page = page_of("t", task, not_asked("no"), {"n": 2})
            for copy, program in enumerate(programs):
                lines = [row.lines[copy] for row in page.rows]
                text = [line.text for line in lines if line is not None]
                self.assertEqual(text, list(block_lines(program.body, "")))
                numbers = [line.number for line in lines if line and line.number is not None]
                self.assertEqual(numbers, list(range(len(numbers))))

    def test_who_changed_a_line(self) -> None:
        page = page_of("t", read_task(example(CART)), not_asked("no"), None)
        self.assertEqual([row.side for row in page.rows], ["", "", "", "a", "", "", *"bbbbb"])
        self.assertEqual(page.rows[3].changed, (False, True, False, True))
        task = read_task(
            "var x; output x; shared { ?1; ?2; ?3; } base { ?1 { } ?2 { } ?3 { } }"
            " variant_a { ?1 { x = 1; } ?2 { } ?3 { } } variant_b { ?1 { x = 2; } ?2 { } ?3 { } }"
            " candidate { ?1 { x = 1; } ?2 { x = 4; } ?3 { } }")
        sides = [row.side for row in page_of("t", task, not_asked("no"), None).rows]
        self.assertEqual(sides, ["both", "alone"])

    def test_what_lines_did(self) -> None:
        task = read_task(example(CART))
        page = page_of("t", task, not_asked("no"), {"n": 6, "price": {0: 9}})
        found = [done(page, 2, line) for line in (row.lines[2] for row in page.rows) if line]
        self.assertEqual(found, ["0", "0", "6 turns", "9, 9, 9, …, 9", "1, 2, 3, …, 6", "",
                                 "0", "no", None, "", ""])

    def test_a_page_is_one_file_without_scripts(self) -> None:
        task = read_task(example(CART))
        name = "<b>&\"'"
        reader = read(html_text(page_of(name, task, not_asked("<script>"), {"n": 1})))
        self.assertEqual((reader.open, reader.links), ([], []))
        self.assertNotIn("script", reader.tags)
        self.assertIn(name, reader.words)
        self.assertIn("total = total + price[item];", reader.words)

    def test_a_bar_stays_in_its_cell(self) -> None:
        task = read_task("var x; output x; shared { if (x < 1 || x > 2) { } else { } }"
                         " base { } variant_a { } variant_b { } candidate { }")
        rows = [line for line in markdown_text(page_of("t", task, not_asked("no"), None))
                .splitlines() if line.startswith("|")]
        cells = {len(re.findall(r"(?<!\\)\|", row)) for row in rows}
        self.assertEqual(cells, {6})


@needs_program
class Command(Folder):
    def report(self, *words: str) -> Tuple[int, str]:
        return self.call(script("merge_report"), *words)

    def test_a_conflict_shows_its_start(self) -> None:
        status, text = self.report(os.path.join(EXAMPLES, CART))
        self.assertEqual(status, 0)
        for line in ("# cart.task", "**Conflict.** There is a start from which",
                     "`Conflict trial 4 cell gift clause 2`", "| gift | 6 | 6 | 0 | **1** ✗ |",
                     "- gift: the change of B is lost: base has 6, B 0, and candidate 1"):
            self.assertIn(line, text)

    def test_a_given_start_is_shown(self) -> None:
        status, printed = self.report(os.path.join(EXAMPLES, CART), self.write("in", INPUT),
                                      "--html", "page.html", "--markdown", "page.md")
        self.assertEqual((status, printed), (0, ""))
        self.assertIn("From the given start: Conflict cell gift clause 3", self.read("page.md"))
        words = read(self.read("page.html")).words
        for word in ("Conflict.", "gift", "3 turns", "22, 39, 51",
                     "gift: a change that nobody made: base, A and B have 0, and candidate 1"):
            self.assertIn(word, words)

    def test_what_can_not_be_read_is_named(self) -> None:
        task = os.path.join(EXAMPLES, CART)
        self.assertEqual(self.report("none"), (5, "none: No such file or directory\n"))
        self.assertEqual(self.report(self.write("t", "var x;"))[0], 3)
        self.assertEqual(self.report(task, self.write("in", "[1]")),
                         (3, "%s: an input is an object of JSON\n" % self.path("in")))
        for text in ("{", '{"n":1.5}', '{"n":true}', '{"n":"1.5"}', '{"price":[1]}'):
            self.assertEqual(self.report(task, self.write("in", text))[0], 3, text)
