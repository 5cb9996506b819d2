"""git-safemerge: asks of a merge commit what the driver asks of a merge."""
import fnmatch
import os
import sys
import tempfile
from typing import Dict, Iterator, List, Optional, Sequence

from ..asking import Answer, Judged, Settings, Version, judged, not_asked
from ..git import GitFault, git, lines_of, names_of, settings_of
from ..showing import GIT_NAMES
from .merge_task import USAGE, Words

PATTERNS = ["*.prog"]


def words() -> Words:
    parser = Words(prog="git-safemerge", description=(
        "Asks of each file that a merge commit merged whether the merge is safe by meaning. The"
        " exit status is that of the worst answer: 0 accepted, 1 conflict, 2 not decided."))
    parser.add_argument("COMMIT", help="a merge of two parents")
    parser.add_argument("PATTERN", nargs="*", help="which files are programs (*.prog)")
    parser.add_argument("--keep", metavar="FOLDER",
                        help="leave the tasks, and the proofs of what is accepted, there")
    return parser


def blobs_of(commit: str, patterns: Sequence[str]) -> Dict[str, str]:
    """The files of a commit that match a pattern, each with the name of what it has."""
    found = {}
    for entry in names_of("ls-tree", "-r", "-z", "--full-tree", commit):
        about, path = entry.split("\t", 1)
        _, kind, name = about.split(" ")
        if kind == "blob" and any(fnmatch.fnmatchcase(path, pattern) for pattern in patterns):
            found[path] = name
    return found


def is_plain(base: Optional[str], a: Optional[str], b: Optional[str],
             merge: Optional[str]) -> bool:
    """Whether one side alone changed a file, or both alike, and the merge has just that."""
    return merge == (b if a == base else a) and (base in (a, b) or a == b)


def answers(bases: Sequence[str], parents: Sequence[str], commit: str,
            patterns: Sequence[str], folder: str) -> Iterator[Answer]:
    """The answer on each file that isn't plainly one side's, printed with what is said of it.
    Of a commit that has several merge bases each is asked about."""
    settings = settings_of()
    for number, base in enumerate(bases):
        place = os.path.join(folder, str(number)) if number else folder
        files = [blobs_of(each, patterns) for each in (base, *parents, commit)]
        for path in sorted(set().union(*files)):
            blobs = [found.get(path) for found in files]
            if not is_plain(*blobs):
                verdict, text = asked_of(path, blobs, os.path.join(place, path), settings)
                sys.stdout.write("%s: %s" % (path, text))
                sys.stdout.flush()
                yield verdict.answer


def asked_of(path: str, blobs: Sequence[Optional[str]], folder: str,
             settings: Settings) -> Judged:
    """What is answered on one file. The folder is made for its task and proof."""
    missing = [name for name, blob in zip(GIT_NAMES, blobs) if blob is None]
    if missing:
        verdict = not_asked("no such file in " + ", ".join(missing))
        return Judged(verdict, verdict.text(None, GIT_NAMES))
    os.makedirs(folder, exist_ok=True)
    versions = [Version(name, path, git("cat-file", "blob", str(blob)))
                for name, blob in zip(GIT_NAMES, blobs)]
    return judged(versions, folder, settings)


def worst_of(commit: str, patterns: Sequence[str], folder: str) -> int:
    """The status of the worst answer."""
    parents = lines_of("rev-list", "--parents", "--max-count=1", commit)[0].split()[1:]
    if len(parents) != 2:
        print("git-safemerge: %s has %d parents; a merge has two" % (commit, len(parents)),
              file=sys.stderr)
        return USAGE
    bases = lines_of("merge-base", "--all", *parents)
    found = list(answers(bases, parents, commit, patterns, folder))
    if not found:
        print("nothing to ask: of %s no file was changed on both sides" % " ".join(patterns))
        return 0
    return max(found, key=lambda answer: answer.rank).status


def main(arguments: List[str]) -> int:
    """0 where all is accepted, 1 with a conflict, else 2; 4 where it isn't a merge."""
    given = words().parse_args(arguments)
    patterns = given.PATTERN or PATTERNS
    try:
        if given.keep:
            return worst_of(given.COMMIT, patterns, given.keep)
        with tempfile.TemporaryDirectory(prefix="safemerge-") as folder:
            return worst_of(given.COMMIT, patterns, folder)
    except GitFault as fault:
        print("git-safemerge: %s" % fault, file=sys.stderr)
        return USAGE
