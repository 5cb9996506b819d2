"""What the pages show is what their commands print."""
import os
import re
import subprocess
import unittest
from typing import Dict, List, Tuple

from .support import (CONTRIB, EXAMPLES, SAFEMERGE, TOP, Folder, Repository, called, example,
                      needs_program)


def page(name: str) -> str:
    with open(os.path.join(TOP, name), encoding="utf-8") as file:
        return file.read()


def sessions(name: str = "contrib/README.md") -> List[Tuple[str, str]]:
    """The blocks of a page that begin with a command: their commands, and what they print."""
    found = []
    for block in re.findall(r"(?:^    .*\n)+", page(name), re.MULTILINE):
        shown = [line[4:] for line in block.splitlines()]
        if shown[0].startswith("$ "):
            commands = [line[2:] for line in shown if line.startswith("$ ")]
            printed = [line for line in shown if not line.startswith("$ ")]
            found.append(("\n".join(commands), "".join(line + "\n" for line in printed)))
    return found


def shown(text: str) -> str:
    """A text as a block of a page."""
    return "".join("    %s\n" % line for line in text.splitlines())


class TopPage(unittest.TestCase):
    def test_a_whole_task_is_that_of_the_example(self) -> None:
        self.assertIn("\n\n%s\n    $ cd examples/edits_that_interfere\n" % shown(
            example("edits_that_interfere/limits.task")), page("README.md"))

    def test_the_loop_is_that_of_the_recipe(self) -> None:
        loop = page("contrib/recipes/queue.sh").split("\n\n")[-1]
        self.assertIn("\n\n%s\n" % shown(loop), page("README.md"))

    def test_sessions_are_those_of_the_examples(self) -> None:
        kept = [(example(name + "/command").strip(), example(name + "/output"))
                for name in os.listdir(EXAMPLES) if not name.startswith(".")]
        found = sessions("README.md")
        self.assertEqual(len(found), 9)
        for commands, printed in found:
            words = re.sub(r"^cd \S+(\n| && )", "", commands)
            self.assertTrue(any(words in command and printed in output
                                for command, output in kept), commands)

    def test_what_is_named_is_there(self) -> None:
        for name in ("README.md", "docs/language.md", "bench/README.md"):
            for path in re.findall(r"[`(]((?:docs|examples|contrib|bench|crates)/[\w./-]*\w)",
                                   page(name)):
                self.assertTrue(os.path.exists(os.path.join(TOP, path)), path)

    def test_sections_that_are_linked_are_there(self) -> None:
        for path, anchor in re.findall(r"\]\(([\w./]+)#([\w-]+)\)", page("README.md")):
            heads = re.findall(r"^#+ (.*)$", page(path), re.MULTILINE)
            anchors = [re.sub(r"[^\w -]", "", head).lower().replace(" ", "-") for head in heads]
            self.assertIn(anchor, anchors, path)


class OlderProof(Folder):
    def test_it_stays_until_a_new_one_is_whole(self) -> None:
        line = next(line.strip() for line in page("README.md").splitlines() if " && mv " in line
                    and line.startswith("    safemerge check "))
        self.assertIn(line, page("docs/safemerge.1"))
        self.write("found.proof", "an older proof")
        for status, answer, kept in ((7, "WriteFault\n", "an older proof"),
                                     (0, "Accepted\n", "a proof")):
            changes = self.stand_in(status, answer, "a proof")
            self.assertEqual(self.call("sh", "-c", line, **changes), (status, answer))
            self.assertEqual(self.read("found.proof"), kept)


@needs_program
class Said(Folder):
    """What README says of files and signals, each as the program does it."""

    def setUp(self) -> None:
        super().setUp()
        self.task = example("both_edits_kept/timeouts.task")
        self.write("v.task", self.task)

    def ended(self, code: str) -> Tuple[int, str]:
        return self.call("sh", "-c", code + "; exit $?", "sh", str(SAFEMERGE))

    def test_two_names_of_one_file_lose_the_task(self) -> None:
        for made, name in ((":", "./v.task"), ("ln -s v.task s", "s"), ("ln -f v.task h", "h")):
            self.write("v.task", self.task)
            self.assertEqual(self.ended('%s; "$1" check v.task %s' % (made, name)),
                             (0, "Accepted\n"))
            self.assertTrue(self.read("v.task").startswith("safemerge-proof 1\n"), name)

    def test_an_output_that_nobody_reads_could_not_be_written(self) -> None:
        nobody, output = os.pipe()
        os.close(nobody)
        done = subprocess.run([str(SAFEMERGE), "print", "v.task"], cwd=self.folder, stdout=output,
                              check=False)
        os.close(output)
        self.assertEqual(done.returncode, 8)

    @unittest.skipUnless(os.path.exists("/dev/full"), "there is no /dev/full")
    def test_a_full_disk_is_a_fault_of_writing(self) -> None:
        self.assertEqual(self.ended('"$1" check v.task /dev/full'), (7, "WriteFault\n"))

    def test_a_limit_on_the_size_of_files_kills(self) -> None:
        status, printed = self.ended('ulimit -f 0; "$1" check v.task p')
        self.assertEqual(status, 153)
        self.assertNotIn("Accepted", printed)
        self.assertEqual(self.read("p"), "")


@needs_program
class Shown(Repository):
    def programs(self) -> Dict[str, str]:
        """The path, with the program as `safemerge`."""
        os.makedirs(self.path("bin"))
        os.symlink(str(SAFEMERGE), self.path("bin/safemerge"))
        return {"PATH": os.pathsep.join((self.path("bin"), CONTRIB, os.environ["PATH"]))}

    def versions(self) -> None:
        """The repository of the example."""
        self.sides(*({"limits.prog": example("git_merges_cleanly/%s.prog" % name)}
                     for name in ("base", "a", "b")))

    def test_sessions(self) -> None:
        path = self.programs()
        self.git("config", "--remove-section", "merge.safemerge")
        self.versions()
        self.git("merge", "-q", "-m", "merge", "theirs")
        found = [session for session in sessions() if "git config" not in session[0]]
        self.assertEqual(len(found), 5)
        for commands, printed in found:
            folder = self.folder if commands.startswith("git-safemerge") else TOP
            self.assertEqual(called(["sh", "-c", commands], folder, **path)[1], printed)

    def test_the_driver_is_configured_as_shown(self) -> None:
        self.git("config", "--remove-section", "merge.safemerge")
        changes = {**self.programs(), "GIT_CONFIG_GLOBAL": self.write("settings", "")}
        os.remove(self.path(".gitattributes"))
        commands, printed = next(session for session in sessions() if "git config" in session[0])
        self.assertEqual((self.call("sh", "-c", commands, **changes), printed), ((0, ""), ""))
        self.versions()
        status, merged = self.merge(**changes)
        self.assertEqual(status, 1)
        self.assertIn("safemerge: limits.prog: Conflict trial 1 cell used clause 3\n", merged)
