"""git-merge-safemerge: a merge driver that asks by meaning what git merges as text."""
import subprocess
import sys
import tempfile
from typing import List

from ..asking import Answer, Version, judged
from ..git import configured, settings_of

USAGE = "usage: git-merge-safemerge %O %A %B %P (git config merge.safemerge.driver)"
MERGED, UNMERGED = 0, 1


def contents(path: str) -> bytes:
    with open(path, "rb") as file:
        return file.read()


def merged_as_text(ours: str, base: str, theirs: str) -> bool:
    """Merges into the file of ours, as git does without a driver; whether no conflict came."""
    labels = ["-L", "ours", "-L", "base", "-L", "theirs"]
    done = subprocess.run(["git", "merge-file", *labels, ours, base, theirs], check=False)
    return done.returncode == 0


def main(arguments: List[str]) -> int:
    """0 where the merge stands; 1 where the path is left unmerged."""
    if len(arguments) != 4:
        print(USAGE, file=sys.stderr)
        return UNMERGED
    base, ours, theirs, path = arguments
    versions = [Version("base", path, contents(base)), Version("ours", path, contents(ours)),
                Version("theirs", path, contents(theirs))]
    if not merged_as_text(ours, base, theirs):
        return UNMERGED
    versions.append(Version("merge", path, contents(ours)))
    with tempfile.TemporaryDirectory(prefix="safemerge-") as folder:
        verdict, text = judged(versions, folder, settings_of())
    sys.stderr.write("safemerge: %s: %s" % (path, text))
    sys.stderr.flush()
    if verdict.answer is Answer.UNKNOWN:
        return UNMERGED if configured("unknown", 1) else MERGED
    return MERGED if verdict.answer is Answer.ACCEPTED else UNMERGED
