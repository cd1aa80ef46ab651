"""Temporary files and folders, of which none stays behind a signal."""
import tempfile
import weakref
from collections.abc import Iterator
from contextlib import contextmanager
from pathlib import Path
from typing import IO

from . import interrupt

PREFIX = "mqroute-"


def file(holder: object) -> IO[bytes]:
    """One with a name, as long as its holder lives."""
    with interrupt.held():
        made = tempfile.NamedTemporaryFile(prefix=PREFIX)
        weakref.finalize(holder, made.close)
        return made


def unnamed(holder: object) -> IO[bytes]:
    """The same without a name: nothing of it stays, however the process ends."""
    with interrupt.held():
        made = tempfile.TemporaryFile(prefix=PREFIX)
        weakref.finalize(holder, made.close)
        return made


@contextmanager
def folder(inside: str | None = None) -> Iterator[Path]:
    """In the place for such folders, or hidden in one that the user named."""
    with interrupt.held():
        made = tempfile.TemporaryDirectory(prefix=f".{PREFIX}" if inside else PREFIX, dir=inside)
    try:
        yield Path(made.name)
    finally:
        with interrupt.held():
            made.cleanup()
