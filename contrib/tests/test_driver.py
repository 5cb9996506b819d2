"""The merge driver, in repositories of git."""
import os

from frontend.making import copy_texts
from frontend.reading import read_program
from frontend.trees import COPIES

from . import merges
from .support import Repository, needs_program

UNMERGED = "CONFLICT (content)"


class Driven(Repository):
    def merged(self, versions: merges.Merge, **changes: str):
        """The status and the lines of `git merge`, with one file."""
        self.sides({"p.prog": versions.base}, {"p.prog": versions.ours},
                   {"p.prog": versions.theirs})
        return self.merge(**changes)

    def refused(self, printed: str) -> None:
        self.assertIn(UNMERGED, printed)
        self.assertEqual(self.unmerged(), ["p.prog"])


@needs_program
class Driver(Driven):
    def test_what_is_accepted_is_merged(self) -> None:
        status, printed = self.merged(merges.ACCEPTED)
        self.assertEqual(status, 0, printed)
        self.assertIn("safemerge: p.prog: Accepted\n", printed)
        self.assertIn("limit = 200;\nlarge = 0;\nlarge = size + size;\n", self.read("p.prog"))

    def test_a_conflict_leaves_the_path_unmerged_and_is_shown(self) -> None:
        status, printed = self.merged(merges.CONFLICT)
        self.assertEqual(status, 1)
        self.assertIn(
            "safemerge: p.prog: Conflict trial 0 cell large clause 2\n"
            "start: size = 0, limit = 0, large = 0, pairs = 0, tables = 0\n\n"
            "  output  base  ours  theirs  merge\n"
            "  limit    100   200     100    200\n"
            "! large      0     0     100    200\n\n"
            "large: the change of theirs is lost: base has 0, theirs 100, and merge 200\n", printed)
        self.refused(printed)

    def test_a_conflict_that_no_trial_shows_is_found_beyond_them(self) -> None:
        status, printed = self.merged(merges.DRAWN)
        self.assertEqual(status, 1)
        self.assertRegex(printed, r"p\.prog: Conflict trial \d+ cell large clause 2\nstart: size = ")
        self.refused(printed)

    def test_a_conflict_that_check_does_not_show_is_found_by_drawn_inputs(self) -> None:
        self.git("config", "safemerge.unknown", "0")
        status, printed = self.merged(merges.DRAWN, **self.undecided())
        self.assertEqual(status, 1)
        self.assertRegex(printed, r"p\.prog: Conflict cell large clause \d\nstart: size = 200, ")
        self.refused(printed)

    def test_what_is_not_decided_is_left_unmerged(self) -> None:
        status, printed = self.merged(merges.UNKNOWN)
        self.assertEqual(status, 1)
        self.assertRegex(printed, r"p\.prog: Unknown Open \d+ \d+\nwhat isn't shown: at `large`, ")
        self.assertIn("\nof 4000 inputs drawn from its numbers none shows a conflict\n", printed)
        self.refused(printed)

    def test_what_is_not_decided_is_merged_where_that_is_configured(self) -> None:
        self.git("config", "safemerge.unknown", "0")
        status, printed = self.merged(merges.UNKNOWN)
        self.assertEqual(status, 0, printed)
        self.assertIn("p.prog: Unknown Open", printed)

    def test_an_assumption_that_no_start_meets_is_for_a_person(self) -> None:
        status, printed = self.merged(merges.VACUOUS)
        self.assertEqual(status, 1)
        self.assertIn("p.prog: Accepted, but no trial meets the assumption\n", printed)
        self.refused(printed)

    def test_an_assumption_that_a_drawn_input_meets_is_taken(self) -> None:
        status, printed = self.merged(merges.RARE)
        self.assertEqual(status, 0, printed)
        self.assertIn("p.prog: Accepted\nno trial meets the assumption; a drawn input does\n",
                      printed)

    def test_the_driver_works_with_a_rebase_and_a_pick(self) -> None:
        self.sides(*({"p.prog": text} for text in merges.CONFLICT))
        for words in (("rebase", "theirs"), ("cherry-pick", "theirs")):
            status, printed = self.call("git", *words)
            self.assertEqual(status, 1)
            self.assertIn("Conflict trial 0 cell large clause", printed)
            self.refused(printed)
            self.git(words[0], "--abort")

    def test_the_driver_works_without_a_working_tree(self) -> None:
        self.sides(*({"p.prog": text} for text in merges.CONFLICT))
        status, printed = self.call("git", "merge-tree", "--write-tree", "main", "theirs")
        self.assertEqual(status, 1)
        self.assertIn("Conflict trial 0 cell large clause 2", printed)

    def test_two_merge_bases(self) -> None:
        """Two branches that have merged each other; then each side edits."""
        self.sides(*({"p.prog": text} for text in merges.ACCEPTED))
        ours, theirs = self.git("rev-parse", "main", "theirs").split()
        self.git("merge", "-q", "-m", "one", theirs)
        self.git("checkout", "-q", "theirs")
        self.git("merge", "-q", "-m", "two", ours)
        last = self.read("p.prog")
        self.commit({"p.prog": last + "pairs = limit;\n"})
        self.git("checkout", "-q", "main")
        self.commit({"p.prog": last.replace("limit = 200", "limit = 300")})
        self.assertEqual(len(self.git("merge-base", "--all", "main", "theirs").split()), 2)
        status, printed = self.merge()
        self.assertEqual(status, 0, printed)
        self.assertIn("safemerge: p.prog: Accepted\n", printed)

    def test_names_of_files_may_have_spaces(self) -> None:
        self.sides(*({"my folder/p q.prog": text} for text in merges.ACCEPTED))
        status, printed = self.merge()
        self.assertEqual(status, 0, printed)
        self.assertIn("p q.prog", printed)


class Unasked(Driven):
    """What needs no answer of the program."""

    def test_a_conflict_of_text_is_left_as_git_leaves_it(self) -> None:
        status, printed = self.merged(merges.TEXT)
        self.assertEqual(status, 1)
        self.assertNotIn("safemerge:", printed)
        self.refused(printed)
        self.assertIn("<<<<<<< ours\nlimit = 2;\n=======\nlimit = 3;\n>>>>>>> theirs\n",
                      self.read("p.prog"))

    def test_without_the_program_nothing_is_decided(self) -> None:
        status, printed = self.merged(merges.ACCEPTED, SAFEMERGE=self.path("none"))
        self.assertEqual(status, 1)
        self.assertIn("Unknown: not asked\n%s: No such file" % self.path("none"), printed)
        self.refused(printed)

    def test_a_text_that_is_no_program_is_shown_in_its_place(self) -> None:
        theirs = merges.ACCEPTED.theirs.replace("size + ", "size / ")
        broken = merges.ACCEPTED._replace(theirs=theirs)
        status, printed = self.merged(broken)
        self.assertEqual(status, 1)
        self.assertIn("p.prog (theirs):6:14: no token begins with '/'\n  large = size / size;\n",
                      printed)
        self.refused(printed)

    def test_no_answer_in_time(self) -> None:
        four = [read_program(text) for text in (*merges.ACCEPTED, merges.MERGED)]
        for copy, text in zip(COPIES, copy_texts(four)):
            self.write(copy, text)
        slow = self.write("slow", (
            "#!/bin/sh\ncase $1$3 in\n  print) cat \"$2\" ;;\n  print--copy) cat '%s'/$4 ;;\n"
            "  *) sleep 9 ;;\nesac\n" % self.folder))
        os.chmod(slow, 0o755)
        self.git("config", "safemerge.seconds", "1")
        self.git("config", "safemerge.draws", "10")
        status, printed = self.merged(merges.ACCEPTED, SAFEMERGE=slow)
        self.assertEqual(status, 1)
        self.assertIn("Unknown: no answer within 1 seconds\nof 10 inputs", printed)

    def test_a_program_that_reads_another_task_is_not_believed(self) -> None:
        other = self.write("other", "#!/bin/sh\necho Accepted\n")
        os.chmod(other, 0o755)
        status, printed = self.merged(merges.ACCEPTED, SAFEMERGE=other)
        self.assertEqual(status, 1)
        self.assertIn("the program reads another task than was written", printed)

    def test_a_program_that_reads_another_copy_is_not_believed(self) -> None:
        status, printed = self.merged(
            merges.ACCEPTED, **self.stand_in(0, "Accepted\n", "a proof", lies="b"))
        self.assertEqual(status, 1)
        self.assertIn("Unknown: not asked\na fault of this tool: the program reads another copy of"
                      " theirs than the file has\n", printed)
        self.refused(printed)

    def test_one_side_alone_is_not_asked(self) -> None:
        self.sides({"p.prog": merges.ACCEPTED.base}, {"other": "1"},
                   {"p.prog": merges.ACCEPTED.theirs})
        status, printed = self.merge()
        self.assertEqual(status, 0)
        self.assertNotIn("safemerge:", printed)
