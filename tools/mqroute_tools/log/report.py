"""The lines of a report on a log, in the order of the log: of many memory holds a few."""
import marshal
import struct
from collections.abc import Callable, Iterable, Iterator
from itertools import starmap
from typing import Generic, TypeVar

from ..common import temporary
from .report_line import Line, Refusal
from .steps import Flat

Found = TypeVar("Found", Line, Refusal)

HELD = 1_000  # lines that memory holds, beside those of which more may come
ENTRY = struct.Struct("=QQ")  # where a line stands in the file, and of how many bytes


class Spill:
    """Lines under their numbers, in two files: the lines as they come, and where each stands. No
    line stands under a number that was left out. The files have no names, since a second process
    that compares may be killed."""

    def __init__(self) -> None:
        self.lines, self.places = temporary.unnamed(self), temporary.unnamed(self)
        self.end = 0

    def write(self, lines: Iterable[tuple[int, Flat]]) -> None:
        """In the order of their numbers, since a file that goes on is written at once."""
        self.lines.seek(self.end)
        following = -1
        for number, flat in lines:
            data = marshal.dumps(flat)
            self.lines.write(data)
            if number != following:
                self.places.seek(number * ENTRY.size)
            self.places.write(ENTRY.pack(self.end, len(data)))
            self.end += len(data)
            following = number + 1

    def __iter__(self) -> Iterator[Flat]:
        self.places.seek(0)
        following = -1
        while entry := self.places.read(ENTRY.size):
            at, size = ENTRY.unpack(entry)
            if size and at != following:
                self.lines.seek(at)
            if size:
                yield marshal.loads(self.lines.read(size))
                following = at + size


class Report(Generic[Found]):
    """What is found gets its number where it begins, and is added, if at all, when nothing of it
    changes any more."""

    def __init__(self, made: Callable[..., Found]) -> None:
        self.made: Callable[..., Found] = made  # of what `flat` gives
        self.numbers = 0  # that were given
        self.held: list[tuple[int, Found]] = []
        self.spill: Spill | None = None

    def number(self) -> int:
        self.numbers += 1
        return self.numbers - 1

    def add(self, number: int, found: Found) -> None:
        self.held.append((number, found))
        if len(self.held) > HELD:
            self.put_away()

    def put_away(self) -> None:
        if self.spill is None:
            self.spill = Spill()
        self.spill.write((number, found.flat()) for number, found in self.in_order())
        self.held.clear()

    def in_order(self) -> list[tuple[int, Found]]:
        return sorted(self.held, key=lambda one: one[0])

    def __iter__(self) -> Iterator[Found]:
        """By their numbers."""
        if self.spill is None:
            yield from (found for _, found in self.in_order())
            return
        self.put_away()
        yield from starmap(self.made, self.spill)
