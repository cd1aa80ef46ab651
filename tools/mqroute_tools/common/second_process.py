"""A second process that makes what this one takes, so that the two work at the same time."""
import os
import pickle
import signal
from collections.abc import Callable, Iterable, Iterator
from contextlib import contextmanager
from typing import BinaryIO, NoReturn, TypeVar

from . import interrupt
from .exit_status import Fault

Item = TypeVar("Item")

BATCH = 128  # items that go over at once


def ahead(items: Iterable[Item]) -> Iterator[Item]:
    """The items, in their order, each of which can be pickled. Where there is a second processor, a
    second process makes them, by what is here when the first is asked for; what changes there
    changes there alone. What it raises is raised here."""
    if not has_second():
        yield from items
        return
    with started(items) as stream:
        yield from received(stream)


@contextmanager
def meanwhile(work: Callable[[], Item]) -> Iterator[Callable[[], Item]]:
    """Gives what waits for the result of the work, which can be pickled: a second process does it
    meanwhile, or else it is done then."""
    if not has_second():
        yield work
        return
    with started(one(work)) as stream:
        yield lambda: next(received(stream))


def one(work: Callable[[], Item]) -> Iterator[Item]:
    yield work()


def has_second() -> bool:
    """Whether there can be a second process, and a processor for it."""
    return hasattr(os, "fork") and processors() > 1


@contextmanager
def started(items: Iterable[Item]) -> Iterator[BinaryIO]:
    """What a second process sends, which makes the items."""
    reading, writing = os.pipe()
    process = os.fork()
    if process == 0:
        os.close(reading)
        make(items, writing)
    os.close(writing)
    try:
        with open(reading, "rb") as stream:
            yield stream
    finally:
        os.kill(process, signal.SIGKILL)
        os.waitpid(process, 0)


def processors() -> int:
    """How many this process may use."""
    if hasattr(os, "sched_getaffinity"):
        return len(os.sched_getaffinity(0))
    return os.cpu_count() or 1


def make(items: Iterable[Item], writing: int) -> NoReturn:
    """Writes the items by batches, then what ended them: None, or what was raised."""
    interrupt.handle(signal.SIG_DFL)  # the first process says that it stops
    try:
        with open(writing, "wb") as stream:
            send(items, stream)
    finally:
        os._exit(0)  # what is open belongs to the first process


def send(items: Iterable[Item], stream: BinaryIO) -> None:
    batch: list[Item] = []
    ended: Exception | None = None
    try:
        for item in items:
            batch.append(item)
            if len(batch) == BATCH:
                pickle.dump(batch, stream, pickle.HIGHEST_PROTOCOL)
                batch = []
    except Exception as fault:
        ended = fault
    pickle.dump(batch, stream, pickle.HIGHEST_PROTOCOL)
    pickle.dump(ended, stream)


def received(stream: BinaryIO) -> Iterator[Item]:
    try:
        while isinstance(batch := pickle.load(stream), list):
            yield from batch
    except EOFError:
        raise Fault("the second process was stopped") from None
    if batch is not None:
        raise batch
