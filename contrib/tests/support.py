"""What several tests use: the program, the scripts, and repositories of git."""
import os
import shutil
import subprocess
import sys
import tempfile
import unittest
from typing import Dict, List, Tuple

CONTRIB = os.path.dirname(os.path.dirname(os.path.abspath(__file__)))
TOP = os.path.dirname(CONTRIB)
EXAMPLES = os.path.join(TOP, "examples")
SAFEMERGE = shutil.which(os.environ.get("SAFEMERGE", os.path.join(TOP, "bin", "safemerge")))
LACKING = "there is no program; make it, or name it: SAFEMERGE=PROGRAM"
FIXED = {
    "GIT_AUTHOR_NAME": "A", "GIT_AUTHOR_EMAIL": "a@example.com",
    "GIT_COMMITTER_NAME": "A", "GIT_COMMITTER_EMAIL": "a@example.com",
    "GIT_CONFIG_GLOBAL": os.devnull, "GIT_CONFIG_NOSYSTEM": "1", "GIT_TERMINAL_PROMPT": "0",
}

STAND_IN = """#!/bin/sh
[ "$1 $3" = "print --copy" ] && exec '%s' '%s' "$2" "$4" '%s'
[ "$1" = print ] && exec cat "$2"
[ "$1" = replay ] && echo '%s' && exit 2
for word; do :; done
proof='%s'
[ -z "$proof" ] || printf '%%s' "$proof" >"$word" || exit
cat "${0%%/*}/answer"
exit %d
"""

UNDECIDED = """#!/bin/sh
[ "$1" = check ] && echo 'Unknown Open 9 0' && exit 2
exec '%s' "$@"
"""

needs_program = unittest.skipUnless(SAFEMERGE, LACKING)


def script(name: str) -> str:
    return os.path.join(CONTRIB, name)


def environment() -> Dict[str, str]:
    """That of a call: git without the user's settings, and the program as `safemerge`."""
    found = {**os.environ, **FIXED}
    found.pop("GIT_DIR", None)
    if SAFEMERGE:
        found["SAFEMERGE"] = os.path.abspath(SAFEMERGE)
    found["PATH"] = CONTRIB + os.pathsep + found["PATH"]
    return found


def called(words: List[str], folder: str = TOP, **changes: str) -> Tuple[int, str]:
    """The status of a call, and what it printed on both of its outputs."""
    done = subprocess.run(words, cwd=folder, env={**environment(), **changes}, check=False,
                          stdout=subprocess.PIPE, stderr=subprocess.STDOUT, timeout=300)
    return done.returncode, done.stdout.decode("utf-8", "replace")


def example(path: str) -> str:
    with open(os.path.join(EXAMPLES, path), encoding="utf-8") as file:
        return file.read()


class Folder(unittest.TestCase):
    """A test with a folder of its own."""

    def setUp(self) -> None:
        place = tempfile.TemporaryDirectory(prefix="safemerge-test-")
        self.addCleanup(place.cleanup)
        self.folder = place.name

    def path(self, name: str) -> str:
        return os.path.join(self.folder, name)

    def write(self, name: str, text: str) -> str:
        os.makedirs(os.path.dirname(self.path(name)), exist_ok=True)
        with open(self.path(name), "w", encoding="utf-8") as file:
            file.write(text)
        return self.path(name)

    def read(self, name: str) -> str:
        with open(self.path(name), encoding="utf-8") as file:
            return file.read()

    def call(self, *words: str, **changes: str) -> Tuple[int, str]:
        return called(list(words), self.folder, **changes)

    def stand_in(self, status: int, answer: str, proof: str = "", replayed: str = "Unmet",
                 lies: str = "") -> Dict[str, str]:
        """What puts another program in the place of `safemerge`. It prints a task as it stands, and
        to each `check` it gives this answer, with this text in the file PROOF if there is one. In
        place of the filled program of a copy about which it lies it prints another."""
        printer = os.path.join(CONTRIB, "tests", "copies.py")
        name = self.write("stand-in/safemerge", STAND_IN % (
            sys.executable, printer, lies, replayed, proof, status))
        self.write("stand-in/answer", answer)
        os.chmod(name, 0o755)
        path = os.pathsep.join((os.path.dirname(name), CONTRIB, os.environ["PATH"]))
        return {"PATH": path, "SAFEMERGE": name}

    def undecided(self) -> Dict[str, str]:
        """What puts a program in the place of `safemerge` that decides nothing by `check`, and
        answers all else as `safemerge` does."""
        name = self.write("undecided/safemerge", UNDECIDED % SAFEMERGE)
        os.chmod(name, 0o755)
        path = os.pathsep.join((os.path.dirname(name), CONTRIB, os.environ["PATH"]))
        return {"PATH": path, "SAFEMERGE": name}


class Repository(Folder):
    """A test in a repository, with the driver for `*.prog`."""

    def setUp(self) -> None:
        super().setUp()
        self.git("init", "-q", "-b", "main")
        driver = "'%s' %%O %%A %%B %%P" % script("git-merge-safemerge")
        self.git("config", "merge.safemerge.driver", driver)
        self.git("config", "merge.safemerge.recursive", "text")
        self.write(".gitattributes", "*.prog merge=safemerge\n")

    def git(self, *words: str) -> str:
        """What git prints. It has to succeed."""
        status, printed = self.call("git", *words)
        self.assertEqual(status, 0, printed)
        return printed

    def commit(self, files: Dict[str, str], message: str = "change") -> str:
        for name, text in files.items():
            self.write(name, text)
        self.git("add", ".")
        self.git("commit", "-q", "--allow-empty", "-m", message)
        return self.git("rev-parse", "HEAD").strip()

    def sides(self, base: Dict[str, str], ours: Dict[str, str], theirs: Dict[str, str]) -> None:
        """A branch `theirs` and the present one, which part at a base."""
        self.commit(base, "base")
        self.git("checkout", "-q", "-b", "theirs")
        self.commit(theirs, "theirs")
        self.git("checkout", "-q", "main")
        self.commit(ours, "ours")

    def merge(self, **changes: str) -> Tuple[int, str]:
        return self.call("git", "merge", "-m", "merge", "theirs", **changes)

    def unmerged(self) -> List[str]:
        return self.git("diff", "--name-only", "--diff-filter=U").split()
