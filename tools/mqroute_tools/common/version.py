"""Of which commit the tools are: TIME.COMMIT, the last commit's time to the second in UTC and its
short name, with a + behind them where files are changed.

A package or an installation has it in a file beside the modules. In a clone git says it.
`python3 -m mqroute_tools.common.version` prints that of the clone, for what makes such a file.
"""
import os
import sys
from collections.abc import Mapping
from contextlib import suppress
from datetime import UTC, datetime
from pathlib import Path

from .git import said_by_git

MODULES = Path(__file__).resolve().parent.parent
NAME = "VERSION"  # of the file
CLONE = MODULES.parent.parent
UNKNOWN = "unknown"


def version() -> str:
    with suppress(OSError):
        return (MODULES / NAME).read_text("utf-8").strip()
    # as in a hook, git may have been told of another folder
    around = {name: value for name, value in os.environ.items() if not name.startswith("GIT_")}
    return (of_clone(around) if (CLONE / ".git").exists() else "") or UNKNOWN


def of_clone(around: Mapping[str, str] = os.environ) -> str:
    """Empty where git doesn't say it."""
    time, _, commit = said_by_git(
        str(CLONE), "log", "-1", "--abbrev=7", "--format=%ct %h", around=around).partition(" ")
    if not commit:
        return ""
    changed = "+" if said_by_git(str(CLONE), "status", "--porcelain", around=around) else ""
    return f"{datetime.fromtimestamp(int(time), UTC):%Y%m%d%H%M%S}.{commit}{changed}"


if __name__ == "__main__":
    print(of_clone() or sys.exit("version: git doesn't say it"))
