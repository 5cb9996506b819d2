"""What is asked of merge commits."""
from typing import Tuple

from . import merges
from .support import SAFEMERGE, Repository, needs_program, script


class Asked(Repository):
    def merged(self, **files: merges.Merge) -> None:
        """A merge commit as git makes it without the driver."""
        self.git("config", "--remove-section", "merge.safemerge")
        for place, name in enumerate(("base", "ours", "theirs")):
            if name == "theirs":
                self.git("checkout", "-q", "-b", "theirs", "HEAD~")
            self.commit({path.replace("_", "."): versions[place]
                         for path, versions in files.items()}, name)
        self.git("checkout", "-q", "main")
        self.git("merge", "-q", "-m", "merge", "theirs")

    def ask(self, *words: str) -> Tuple[int, str]:
        return self.call(script("git-safemerge"), *words)


@needs_program
class Merges(Asked):
    def test_the_status_is_that_of_the_worst_answer(self) -> None:
        self.merged(a_prog=merges.ACCEPTED)
        self.assertEqual(self.ask("HEAD"), (0, "a.prog: Accepted\n"))

    def test_a_conflict_is_worse_than_what_is_not_decided(self) -> None:
        self.merged(a_prog=merges.ACCEPTED, b_prog=merges.CONFLICT, c_prog=merges.UNKNOWN)
        status, printed = self.ask("HEAD")
        self.assertEqual(status, 1)
        for line in ("a.prog: Accepted\n", "b.prog: Conflict trial 0 cell large clause 2\n",
                     "\nlarge: the change of theirs is lost", "c.prog: Unknown Open "):
            self.assertIn(line, printed)

    def test_what_is_not_decided_is_worse_than_what_is_accepted(self) -> None:
        self.merged(a_prog=merges.ACCEPTED, c_prog=merges.UNKNOWN)
        self.assertEqual(self.ask("HEAD")[0], 2)

    def test_patterns_say_which_files_are_programs(self) -> None:
        self.merged(a_prog=merges.CONFLICT, b_sm=merges.ACCEPTED)
        self.assertEqual(self.ask("HEAD", "*.sm"), (0, "b.sm: Accepted\n"))
        self.assertEqual(self.ask("HEAD", "*.sm", "*.prog")[0], 1)

    def test_tasks_and_proofs_are_kept(self) -> None:
        self.merged(a_prog=merges.ACCEPTED)
        self.assertEqual(self.ask("--keep", "kept", "HEAD")[0], 0)
        words = (str(SAFEMERGE), "verify", "kept/a.prog/task", "kept/a.prog/proof")
        self.assertEqual(self.call(*words), (0, "Accepted\n"))

    def test_a_resolution_by_hand_is_asked_about(self) -> None:
        self.merged(a_prog=merges.ACCEPTED)
        text = self.read("a.prog").replace("limit = 200", "limit = 100")
        self.write("a.prog", text)
        self.git("commit", "-q", "-a", "--amend", "-m", "ours is lost")
        status, printed = self.ask("HEAD")
        self.assertEqual(status, 1)
        self.assertIn("limit: the change of ours is lost", printed)

    def test_a_merge_that_edits_what_one_side_edited_is_asked_about(self) -> None:
        self.merged(a_prog=merges.ACCEPTED._replace(theirs=merges.ACCEPTED.base),
                    other=merges.TEXT._replace(ours=merges.TEXT.base))
        self.assertEqual(self.ask("HEAD")[0], 0)
        self.write("a.prog", self.read("a.prog") + "limit = 7;\n")
        self.git("commit", "-q", "-a", "--amend", "-m", "more than ours")
        self.assertEqual(self.ask("HEAD")[0], 1)


class Unasked(Asked):
    def test_nothing_to_ask(self) -> None:
        self.merged(a_prog=merges.ACCEPTED._replace(theirs=merges.ACCEPTED.base),
                    other=merges.TEXT._replace(ours=merges.TEXT.base))
        self.assertEqual(self.ask("HEAD"), (
            0, "nothing to ask: of *.prog no file was changed on both sides\n"))

    def test_a_file_that_one_has_not_is_for_a_person(self) -> None:
        self.merged(a_prog=merges.ACCEPTED)
        self.git("rm", "-q", "a.prog")
        self.git("commit", "-q", "--amend", "-m", "dropped")
        self.assertEqual(self.ask("HEAD"), (
            2, "a.prog: Unknown: not asked\nno such file in merge\n"))

    def test_a_program_that_reads_another_copy_is_not_believed(self) -> None:
        self.merged(a_prog=merges.ACCEPTED)
        lying = self.stand_in(0, "Accepted\n", "a proof", lies="candidate")
        self.assertEqual(self.call(script("git-safemerge"), "HEAD", **lying), (
            2, "a.prog: Unknown: not asked\na fault of this tool: the program reads another copy of"
            " merge than the file has\n"))

    def test_what_is_no_merge_is_a_fault_of_the_call(self) -> None:
        self.commit({"a": "1"})
        self.assertEqual(self.ask("HEAD"), (
            4, "git-safemerge: HEAD has 0 parents; a merge has two\n"))
        self.assertEqual(self.ask("none")[0], 4)
        self.assertEqual(self.ask()[0], 4)
