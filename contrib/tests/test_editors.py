"""The completion and the files for editors know the words of the language and of the program."""
import json
import os
import re
import shutil
import unittest
from typing import List

from frontend.reading import RESERVED

from .support import CONTRIB, SAFEMERGE, Folder, example, needs_program, script


def text_of(name: str) -> str:
    with open(os.path.join(CONTRIB, name), encoding="utf-8") as file:
        return file.read()


@unittest.skipUnless(shutil.which("bash"), "there is no bash")
class Completion(Folder):
    def completed(self, *words: str) -> List[str]:
        line = " ".join("'%s'" % word for word in words)
        code = ("source '%s'; COMP_WORDS=(%s); COMP_CWORD=%d; _safemerge;"
                ' printf "%%s\\n" "${COMPREPLY[@]}"') % (
                    script("completion/safemerge.bash"), line, len(words) - 1)
        return self.call("bash", "-c", code)[1].split()

    def test_words_are_completed(self) -> None:
        self.write("one.task", "")
        cases = [
            (("safemerge", ""),
             ["check", "verify", "replay", "print", "suggest", "gen", "explain", "batch",
              "trim", "help", "version"]),
            (("safemerge", "ch"), ["check"]),
            (("safemerge", "ver"), ["verify", "version"]),
            (("safemerge", "check", "--"),
             ["--steps", "--turns", "--workers", "--exact", "--seconds", "--deeper", "--why"]),
            (("safemerge", "suggest", "--"),
             ["--steps", "--turns", "--workers", "--exact", "--seconds"]),
            (("safemerge", "gen", "--"),
             ["--steps", "--turns", "--workers", "--exact", "--seconds"]),
            (("safemerge", "replay", "--"), ["--turns", "--workers"]),
            (("safemerge", "verify", "--"), ["--workers"]),
            (("safemerge", "print", "--"), ["--copy"]),
            (("safemerge", "explain", "--"), ["--turns"]),
            (("safemerge", "batch", "--"),
             ["--cache", "--steps", "--turns", "--workers", "--exact"]),
            (("safemerge", "trim", "--"), []),
            (("safemerge", "explain", "o"), ["one.task"]),
            (("safemerge", "trim", "one.task", "o"), ["one.task"]),
            (("safemerge", "print", "one.task", "--copy", ""), ["base", "a", "b", "candidate"]),
            (("safemerge", "print", "--copy", "b"), ["base", "b"]),
            (("safemerge", "print", "--copy", "b", "o"), ["one.task"]),
            (("safemerge", "help", ""), []),
            (("safemerge", "version", "--"), []),
            (("safemerge", "check", "--steps", ""), []),
            (("safemerge", "print", "o"), ["one.task"]),
            (("safemerge", "suggest", "o"), ["one.task"]),
            (("safemerge", "check", "--exact", "o"), ["one.task"]),
            (("safemerge", "gen", ""), []),
        ]
        for words, expected in cases:
            self.assertEqual(self.completed(*words), expected, words)

    @needs_program
    def test_the_words_are_those_of_help(self) -> None:
        lines = self.call(str(SAFEMERGE), "help")[1].splitlines()
        commands = [line.split()[1] for line in lines]
        self.assertEqual(self.completed("safemerge", ""), commands)
        for command, line in zip(commands, lines):
            self.assertEqual(self.completed("safemerge", command, "--"),
                             re.findall(r"--\w+", line), command)


class Grammar(unittest.TestCase):
    def setUp(self) -> None:
        self.patterns = json.loads(text_of("editors/safemerge.tmLanguage.json"))["patterns"]

    def kind(self, text: str, place: int) -> str:
        """The first pattern of those that match at the place: an editor takes the same."""
        for pattern in self.patterns:
            match = re.compile(pattern["match"], re.MULTILINE).match(text, place)
            if match and match.group():
                return pattern["name"].split(".")[0]
        return ""

    def test_reserved_words_are_no_names(self) -> None:
        for word in RESERVED:
            self.assertIn(self.kind(word, 0), ("storage", "entity", "keyword", "constant"), word)
        for word in ("limit", "whiles", "x1", "variant_ab"):
            self.assertEqual(self.kind(word, 0), "variable", word)

    def test_the_parts_of_a_task(self) -> None:
        text = example("loop_edits_proved/trades.task")
        for part, kind in (("#", "comment"), ("var", "storage"), ("shared", "entity"),
                           ("?1", "variable"), ("while", "keyword"), ("0;", "constant"),
                           ("day", "variable"), ("<", "keyword"), ("+", "keyword")):
            self.assertEqual(self.kind(text, text.index(part)), kind, part)
        self.assertEqual(self.kind("x / y", 2), "invalid")


class Vim(Folder):
    def test_reserved_words_are_known(self) -> None:
        words = re.findall(r"^syntax keyword safemerge(?!Todo)\w+ (.*)$",
                           text_of("editors/vim/syntax/safemerge.vim"), re.MULTILINE)
        self.assertEqual(set(" ".join(words).split()), set(RESERVED))

    @unittest.skipUnless(shutil.which("vim"), "there is no vim")
    def test_vim_colours_a_task(self) -> None:
        task = self.write("t.task", "var x; # no\noutput x;\nshared {\n  ?1;\n  x = 7;\n}\n")
        places = ((1, 1), (1, 8), (3, 1), (4, 3), (5, 7), (5, 3))
        shown = "".join("call add(names, synIDattr(synID(%d, %d, 1), 'name'))\n" % place
                        for place in places)
        code = self.write("s.vim", (
            "set nocompatible\nset runtimepath^=%s\nfiletype on\nsyntax on\nedit %s\n"
            "let names = [&filetype]\n%scall writefile(names, '%s')\nqall!\n") % (
                script("editors/vim"), task, shown, self.path("out")))
        self.call("vim", "-e", "-s", "-u", "NONE", "-S", code, TERM="dumb")
        self.assertEqual(self.read("out").split("\n")[:7], [
            "safemerge", "safemergeDeclaration", "safemergeComment", "safemergeSection",
            "safemergeHole", "safemergeNumber", ""])
