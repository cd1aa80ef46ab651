"""What git says of a folder, which may be somebody else's, as may its configuration: git runs no
pager, hook or monitor that one names, and writes nothing."""
import os
import subprocess
from collections.abc import Mapping

PATIENCE = 5  # seconds
# Of these git asks no program, though a configuration names one.
SETTINGS = ("core.fsmonitor=false", "core.hooksPath=/dev/null", "core.pager=cat",
            "log.showSignature=false", "credential.helper=")
QUIET = ["git", "--no-pager", "--no-optional-locks", "--literal-pathspecs",
         *(word for setting in SETTINGS for word in ("-c", setting))]
# An object that isn't there is fetched from nowhere.
ENVIRONMENT = {"GIT_NO_LAZY_FETCH": "1", "GIT_ALLOW_PROTOCOL": "", "GIT_TERMINAL_PROMPT": "0",
               "GIT_NO_REPLACE_OBJECTS": "1"}


def said_by_git(folder: str, *words: str, around: Mapping[str, str] = os.environ) -> str:
    """Empty where git fails, or isn't there."""
    try:
        done = subprocess.run(
            [*QUIET, "-C", folder or ".", *words], stdin=subprocess.DEVNULL,
            stdout=subprocess.PIPE, stderr=subprocess.DEVNULL, timeout=PATIENCE,
            env={**around, **ENVIRONMENT})
    except (OSError, ValueError, subprocess.SubprocessError):
        return ""
    return done.stdout.decode("utf-8", "replace").strip() if done.returncode == 0 else ""
