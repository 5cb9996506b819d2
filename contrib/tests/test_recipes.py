"""The recipes, each as one would use it."""
import os
import shutil
from typing import List, Sequence, Tuple

from . import merges
from .support import CONTRIB, SAFEMERGE, Folder, Repository, example, needs_program, script


VACUOUS = "Accepted\nno trial meets the assumption\n"
CONFLICT = 'Conflict trial 0 cell large clause 3\ninput {"size":"0"}\n'


class Merged(Repository):
    """Merge commits as git makes them without the driver."""

    def setUp(self) -> None:
        super().setUp()
        self.git("config", "--remove-section", "merge.safemerge")
        self.first = self.commit({}, "first")

    def merged(self, versions: merges.Merge) -> str:
        self.sides(*({"p.prog": text} for text in versions))
        self.git("merge", "-q", "-m", "merge", "theirs")
        return self.git("rev-parse", "HEAD").strip()


@needs_program
class Job(Merged):
    def job(self) -> Tuple[int, str]:
        return self.call(script("recipes/ci.sh"), self.first, "kept")

    def test_all_lines_of_the_answers_are_kept(self) -> None:
        merge = self.merged(merges.CONFLICT)
        status, printed = self.job()
        self.assertEqual(status, 1)
        self.assertTrue(printed.startswith(
            "merge %s\np.prog: Conflict trial 0 cell large clause 2\nstart: size = 0" % merge))
        self.assertEqual(self.read("kept/answers.txt"), printed)

    def test_tasks_and_proofs_are_kept(self) -> None:
        merge = self.merged(merges.ACCEPTED)
        self.assertEqual(self.job(), (0, "merge %s\np.prog: Accepted\n" % merge))
        kept = "kept/%s/p.prog/" % merge
        self.assertEqual(self.call(str(SAFEMERGE), "verify", kept + "task", kept + "proof"),
                         (0, "Accepted\n"))

    def test_what_is_not_decided_has_a_status_of_its_own(self) -> None:
        self.merged(merges.UNKNOWN)
        self.assertEqual(self.job()[0], 2)


class AnsweredJob(Merged):
    """The job over a program whose answers are made up."""

    def job(self, status: int, answer: str) -> Tuple[int, str]:
        changes = self.stand_in(status, answer, "a proof")
        changes["PATH"] = os.environ["PATH"]
        return self.call(script("recipes/ci.sh"), self.first, "kept", **changes)

    def test_second_lines_are_kept(self) -> None:
        self.merged(merges.VACUOUS)
        status, printed = self.job(0, VACUOUS)
        self.assertEqual(status, 2)
        self.assertIn("\np.prog: Accepted, but no trial meets the assumption\nperhaps no start"
                      " meets it, and then any merge is accepted\n", printed)
        self.assertEqual(self.read("kept/answers.txt"), printed)

    def test_a_conflict_is_the_worst_status(self) -> None:
        merge = self.merged(merges.ACCEPTED)
        self.assertEqual(self.job(0, "Accepted\n"), (0, "merge %s\np.prog: Accepted\n" % merge))
        self.merged_three()
        status, printed = self.job(1, CONFLICT)
        self.assertEqual(status, 1)
        self.assertIn("\nmerge ", printed)
        self.assertEqual(self.job(0, "Accepted\n")[0], 4)

    def merged_three(self) -> None:
        """A merge of three, about which nobody is asked, over the merge that is there."""
        for name in ("x", "y"):
            self.git("checkout", "-q", "-b", name, self.first)
            self.commit({name: name}, name)
        self.git("checkout", "-q", "main")
        self.git("merge", "-q", "-m", "merge", "x", "y")

    def test_a_merge_of_three_goes_to_a_person(self) -> None:
        self.merged(merges.ACCEPTED)
        self.merged_three()
        status, printed = self.job(0, "Accepted\n")
        self.assertEqual(status, 4)
        self.assertIn(" has 3 parents; a merge has two\n", printed)
        self.assertEqual(self.read("kept/answers.txt"), printed)

    def test_what_is_no_commit_is_a_fault(self) -> None:
        self.first = "nothing"
        self.assertEqual(self.job(0, "Accepted\n")[0], 4)


class Pushed(Merged):
    """A shared repository with the hook."""

    def setUp(self) -> None:
        super().setUp()
        self.git("init", "-q", "--bare", "shared.git")
        shutil.copy(script("recipes/pre-receive"), self.path("shared.git/hooks/pre-receive"))
        self.git("push", "-q", "shared.git", "main")

    def push(self, *names: str, **changes: str) -> Tuple[int, str]:
        return self.call("git", "push", "shared.git", *(names or ["main"]), **changes)


class AnsweredHook(Pushed):
    """The hook over a program whose answers are made up."""

    def test_second_lines_are_shown(self) -> None:
        self.merged(merges.VACUOUS)
        self.git("-C", "shared.git", "config", "safemerge.unknown", "1")
        changes = self.stand_in(0, VACUOUS, "a proof")
        status, printed = self.push(**changes)
        self.assertEqual(status, 1)
        self.assertIn("remote: p.prog: Accepted, but no trial meets the assumption", printed)
        self.assertIn("remote: perhaps no start meets it", printed)
        self.git("-C", "shared.git", "config", "safemerge.unknown", "0")
        status, printed = self.push(**changes)
        self.assertEqual(status, 0)
        self.assertIn("remote: perhaps no start meets it", printed)

    def test_each_branch_that_is_pushed_is_asked_about(self) -> None:
        merge = self.merged(merges.ACCEPTED)
        status, printed = self.push("main:one", "main:two", **self.stand_in(1, CONFLICT))
        self.assertEqual(status, 1)
        for name in ("one", "two"):
            self.assertIn("remote: safemerge: refs/heads/%s: merge %s" % (name, merge), printed)

    def test_a_merge_is_refused_where_nobody_can_be_asked(self) -> None:
        self.merged(merges.ACCEPTED)
        self.write("lacking/git-safemerge", "#!/bin/sh\nexit 127\n")
        os.chmod(self.path("lacking/git-safemerge"), 0o755)
        path = os.pathsep.join((self.path("lacking"), os.environ["PATH"]))
        self.assertEqual(self.push(PATH=path)[0], 1)


@needs_program
class Hook(Pushed):
    def test_a_merge_that_is_accepted_is_taken(self) -> None:
        self.merged(merges.ACCEPTED)
        status, printed = self.push()
        self.assertEqual(status, 0, printed)
        self.assertIn("remote: p.prog: Accepted", printed)

    def test_a_conflict_is_refused(self) -> None:
        self.merged(merges.CONFLICT)
        status, printed = self.push()
        self.assertEqual(status, 1)
        self.assertIn("remote: large: the change of theirs is lost", printed)
        self.assertIn("pre-receive hook declined", printed)

    def test_what_is_not_decided_is_refused_where_that_is_configured(self) -> None:
        self.merged(merges.UNKNOWN)
        self.git("-C", "shared.git", "config", "safemerge.unknown", "1")
        self.assertEqual(self.push()[0], 1)
        self.git("-C", "shared.git", "config", "safemerge.unknown", "0")
        self.assertEqual(self.push()[0], 0)

    def test_a_new_branch_is_asked_about(self) -> None:
        self.merged(merges.CONFLICT)
        status, printed = self.call("git", "push", "shared.git", "main:other")
        self.assertEqual(status, 1, printed)


class AnsweredQueue(Folder):
    """The queue over a program whose answers are made up."""

    def setUp(self) -> None:
        super().setUp()
        self.task = example("edits_that_interfere/limits.task")
        self.write("v.task", self.task)

    def queue(self, status: int, answer: str, proof: str = "",
              words: Sequence[str] = ("proofs", "v.task")) -> str:
        changes = self.stand_in(status, answer, proof)
        return self.call(script("recipes/queue.sh"), *words, **changes)[1]

    def test_each_answer_is_kept_whole(self) -> None:
        for status, answer, said in (
                (0, "Accepted\n", "merge\n"),
                (0, VACUOUS, "ask a person: status 0 " + VACUOUS),
                (1, CONFLICT, "reject: " + CONFLICT),
                (2, "Unknown Open 4 0\n", "ask a person: status 2 Unknown Open 4 0\n"),
                (7, "WriteFault\n", "ask a person: status 7 WriteFault\n"),
                (124, "", "ask a person: status 124 \n")):
            self.assertEqual(self.queue(status, answer, "a proof"), "v.task: " + said)
            self.assertEqual(self.read("proofs/v.task.answer"), answer or "\n")
            self.assertEqual(os.listdir(self.path("proofs")).count("v.task.proof"), 1)

    def test_an_older_proof_stays_where_no_new_one_is_whole(self) -> None:
        self.queue(0, "Accepted\n", "an older proof")
        for status, answer in ((7, "WriteFault\n"), (137, ""), (0, VACUOUS)):
            self.queue(status, answer, "the front of")
            self.assertEqual(self.read("proofs/v.task.proof"), "an older proof")
        self.queue(0, "Accepted\n", "a new proof")
        self.assertEqual(self.read("proofs/v.task.proof"), "a new proof")
        self.assertEqual(sorted(os.listdir(self.path("proofs"))),
                         ["v.task.answer", "v.task.proof"])

    def test_a_candidate_that_may_never_end_is_for_a_person(self) -> None:
        for replayed, said in (("OutOfTurns M", "ask a person: accepted, but it may never end"),
                               ("OutOfTurns O", "merge"), ("Holds", "merge")):
            changes = self.stand_in(0, "Accepted\n", "a proof", replayed)
            printed = self.call(script("recipes/queue.sh"), replayed, "v.task", **changes)[1]
            self.assertEqual(printed, "v.task: %s\n" % said)
            self.assertEqual("v.task.proof" in os.listdir(self.path(replayed)), said == "merge")

    def test_no_task_is_overwritten(self) -> None:
        os.symlink("v.task", self.path("v.task.proof"))
        self.queue(0, "Accepted\n", "a proof", (".", "v.task"))
        self.assertEqual((self.read("v.task"), self.read("v.task.proof")), (self.task, "a proof"))

    def test_tasks_of_one_name_have_proofs_of_their_own(self) -> None:
        tasks = ("both/timeouts.task", "lost/timeouts.task")
        for task in tasks:
            self.write(task, self.task)
        self.queue(0, "Accepted\n", "a proof", ("proofs", *tasks))
        self.assertEqual(sorted(os.listdir(self.path("proofs"))), [
            name % suffix for name in ("both+timeouts.task.%s", "lost+timeouts.task.%s")
            for suffix in ("answer", "proof")])


@needs_program
class Queue(Folder):
    def queue(self, *tasks: str) -> List[str]:
        place = os.path.join(self.folder, "bin")
        os.makedirs(place)
        os.symlink(str(SAFEMERGE), os.path.join(place, "safemerge"))
        path = os.pathsep.join((place, CONTRIB, os.environ["PATH"]))
        return self.call(script("recipes/queue.sh"), "proofs", *tasks, PATH=path)[1].splitlines()

    def test_each_task_has_its_answer(self) -> None:
        self.write("vacuous.task", "var x; output x; assume x < x; shared { ?1; } base { ?1 { } }"
                   " variant_a { ?1 { x = 1; } } variant_b { ?1 { } } candidate { ?1 { x = 2; } }")
        self.write("endless.task", "var x; output x; shared { ?1; } base { ?1 { x = 1; } }"
                   " variant_a { ?1 { x = 2; } } variant_b { ?1 { x = 1; } }"
                   " candidate { ?1 { while (true) { } } }")
        for task in ("loop_edits_proved/trades.task", "loop_edit_lost/prices.task",
                     "unknown_and_what_to_do/seats.task",
                     "guard_that_no_trial_enters/parcels.task"):
            self.write(os.path.basename(task), example(task))
        lines = self.queue("trades.task", "prices.task", "seats.task", "vacuous.task",
                           "endless.task", "parcels.task")
        self.assertEqual(lines[0], "trades.task: merge")
        self.assertTrue(lines[1].startswith("prices.task: reject: Conflict trial"))
        self.assertTrue(lines[2].startswith('input {"'))
        self.assertEqual(lines[3], "seats.task: ask a person: status 2 Unknown Open 9 0")
        self.assertEqual(lines[4:7], ["vacuous.task: ask a person: status 0 Accepted",
                                      "no trial meets the assumption",
                                      "endless.task: ask a person: accepted, but it may never end"])
        self.assertRegex(lines[7], r"^parcels\.task: reject: Conflict trial \d+ cell large ")
        self.assertIn('"size":"101"', lines[8])
        self.assertEqual(sorted(name for name in os.listdir(self.path("proofs"))
                                if not name.endswith(".answer")), ["trades.task.proof"])
