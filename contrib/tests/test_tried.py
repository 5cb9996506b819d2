"""What was tried as a user and as an operator prints what docs/trust.md says of it."""
import os
import re
from typing import List, Tuple

from .support import CONTRIB, SAFEMERGE, TOP, Folder, example, needs_program

TASKS = {"v.task": "both_edits_kept/timeouts.task", "w.task": "edits_that_interfere/limits.task",
         "u.task": "guard_that_no_trial_enters/parcels.task"}


def rows() -> List[Tuple[str, int, str]]:
    """The rows of the table: the commands, the status of the last, and what is printed."""
    with open(os.path.join(TOP, "docs", "trust.md"), encoding="utf-8") as file:
        section = file.read().split("\n## What was tried")[1].split("\n## ")[0]
    found = []
    for line in section.splitlines():
        cells = re.match(r"\| `(.*)` \| (\d+) \| (.*) \|$", line)
        if cells:
            command, status, printed = cells.groups()
            lines = re.findall(r"`([^`]*)`", printed)
            found.append((command.replace("\\|", "|"), int(status),
                          "".join(line + "\n" for line in lines)))
    return found


@needs_program
class Tried(Folder):
    def test_each_row(self) -> None:
        self.assertGreater(len(rows()), 20)
        os.makedirs(self.path("bin"))
        os.symlink(os.path.abspath(str(SAFEMERGE)), self.path("bin/safemerge"))
        path = os.pathsep.join((self.path("bin"), CONTRIB, os.environ["PATH"]))
        for number, (command, status, printed) in enumerate(rows()):
            for name, task in TASKS.items():
                self.write("%d/%s" % (number, name), example(task))
            with self.subTest(command):
                self.assertEqual(
                    self.call("sh", "-c", 'cd "$1" && eval "$2"', "sh", str(number), command,
                              PATH=path),
                    (status, printed))
