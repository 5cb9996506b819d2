"""What is asked of git."""
import os
import subprocess
from typing import List, Optional

from .asking import Settings


class GitFault(Exception):
    """What git says where a call of it fails."""


def git(*words: str) -> bytes:
    """What a call of git prints."""
    done = subprocess.run(["git", *words], stdout=subprocess.PIPE, stderr=subprocess.PIPE,
                          check=False)
    if done.returncode != 0:
        raise GitFault(done.stderr.decode("utf-8", "replace").strip())
    return done.stdout


def lines_of(*words: str) -> List[str]:
    return git(*words).decode("utf-8", "surrogateescape").splitlines()


def names_of(*words: str) -> List[str]:
    """The paths that a call with -z prints."""
    return [name for name in git(*words).decode("utf-8", "surrogateescape").split("\0") if name]


def configured(key: str, otherwise: int) -> int:
    """A number of the configuration."""
    done = subprocess.run(["git", "config", "--int", "safemerge." + key], stdout=subprocess.PIPE,
                          stderr=subprocess.DEVNULL, check=False)
    return int(done.stdout) if done.returncode == 0 else otherwise


def configured_program() -> Optional[str]:
    done = subprocess.run(["git", "config", "--path", "safemerge.program"],
                          stdout=subprocess.PIPE, stderr=subprocess.DEVNULL, check=False)
    return os.fsdecode(done.stdout).strip() or None


def settings_of() -> Settings:
    """How the program is called here. The variable SAFEMERGE goes before the configuration."""
    default = Settings()
    return Settings(
        program=os.environ.get("SAFEMERGE") or configured_program() or default.program,
        seconds=configured("seconds", int(default.seconds)),
        turns=configured("turns", default.turns),
        draws=configured("draws", default.draws),
    )
