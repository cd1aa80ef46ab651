"""The folder in which a preview works: a temporary one, of which --save lets some files stay."""
import os
from collections.abc import Iterable, Iterator
from contextlib import contextmanager
from pathlib import Path

from ..common import temporary
from ..common.exit_status import Fault

SCRIPT, BEFORE, AFTER = "script.jsonl", "before", "after"
STEPS, CHECKED = "steps", "checked"  # that don't stay
OLD, NEW = "old.jsonl", "new.jsonl"  # by a plan, under old names and under new ones
RETAINED = "retained.jsonl"  # what moves the retained messages
NAMES = SCRIPT, BEFORE, AFTER
ALL_NAMES = *NAMES, OLD, NEW, RETAINED


def refuse_to_overwrite(kept: str, names: Iterable[str]) -> None:
    """Raises Fault where a file of these names is there."""
    for name in names:
        path = Path(kept, name)
        if os.path.lexists(path):
            raise Fault(f"--save {kept}: {path} is there already")


@contextmanager
def work_folder(kept: str | None) -> Iterator[Path]:
    """Below `kept`, which is made where it isn't there, so that `keep` has but to rename."""
    if kept is not None:
        os.makedirs(kept, exist_ok=True)
    with temporary.folder(kept) as folder:
        yield folder


def keep(folder: Path, kept: str) -> None:
    """Lets what is there of the scripts and both outputs stay."""
    names = [name for name in ALL_NAMES if (folder / name).exists()]
    refuse_to_overwrite(kept, names)
    for name in names:
        os.rename(folder / name, Path(kept, name))
