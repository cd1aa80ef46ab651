"""Log files in the order of their times: `mosquitto.log*` names the newest first."""
import time
from collections.abc import Iterable, Iterator
from itertools import chain, islice, pairwise
from typing import NamedTuple

from ..common.exit_status import Fault
from ..common.messages import say
from .log_forms import open_log
from .mosquitto_log import raw_lines
from .time_stamps import HALF_A_YEAR, LOOKED_AT, Stamps

TAIL = 1 << 16  # bytes of a file's end in which its last time is looked for
YEAR, HOUR, NIGHT = 365 * 86_400, 3600, 4
SUNDAY = 6


class LogFile(NamedTuple):
    path: str
    name: str  # as it was given


class Span(NamedTuple):
    """The times of a file's first and last line, of those that are mosquitto's."""
    file: LogFile
    first: int
    last: int


def times(stamps: Stamps, lines: Iterable[bytes]) -> Iterator[int]:
    for line in lines:
        found = stamps.split(line.decode("utf-8", "replace"))[0]
        if found is not None:
            yield found


def decide(stamps: Stamps, lines: Iterator[bytes]) -> list[bytes]:
    """Finds the form of a file's stamps, in its first lines, which it gives back."""
    first = list(islice(lines, LOOKED_AT))
    stamps.decide([line.decode("utf-8", "replace") for line in first])
    return first


def tail(name: str, form: str | None) -> list[bytes]:
    """The last lines, of which the first may be cut."""
    with open_log(name, form) as stream:
        if stream.seekable():
            stream.seek(max(0, stream.seek(0, 2) - TAIL))
        end = b""
        while piece := stream.read(TAIL):
            end = (end + piece)[-TAIL:]
    return end.split(b"\n")


def span(file: LogFile, stamps: Stamps) -> Span | None:
    """None of a file without a time."""
    stamps.years, stamps.prefix_time = 0, None
    with open_log(file.path, stamps.form) as stream:
        lines = raw_lines(stream)
        first = next(times(stamps, chain(decide(stamps, lines), lines)), None)
    if first is None:
        return None
    last = first
    for last in times(stamps, tail(file.path, stamps.form)):
        pass
    return Span(file, first, last)


def has_other_lines(file: LogFile, stamps: Stamps) -> bool:
    """Whether lines stand there of which no time is known."""
    with open_log(file.path, stamps.form) as stream:
        return bool(decide(stamps, raw_lines(stream))) and not stamps.found()


def of_one_year(spans: list[Span]) -> list[Span]:
    """Of stamps without a year those over half a year before the last are of the year after."""
    latest = max(one.first for one in spans)
    later = [YEAR if one.first < latest - HALF_A_YEAR else 0 for one in spans]
    return [Span(one.file, one.first + more, one.last + more) for one, more in zip(spans, later)]


def set_back(before: int, after: int) -> bool:
    """Whether it may be a clock that is set back at the end of summer time, in a Sunday's night.

    Of stamps without a year the day isn't known.
    """
    there = time.gmtime(after)
    is_sunday = after < 3 * YEAR or there.tm_wday == SUNDAY
    return before - after <= HOUR and there.tm_hour < NIGHT and is_sunday


def in_order(files: list[LogFile], form: str | None) -> list[LogFile]:
    """In the order of their first lines; said where another was given. Refuses an overlap."""
    stamps = Stamps(form)
    if any([has_other_lines(file, stamps) for file in files]):
        return files
    found = [span(file, stamps) for file in files]
    dated = [one for one in found if one]
    if len(dated) < 2:
        return files
    if stamps.prefix_time is not None:
        dated = of_one_year(dated)
    ordered = sorted(dated, key=lambda one: (one.first, one.last))
    for one, other in pairwise(ordered):
        if one.last > other.first and not set_back(one.last, other.first):
            raise Fault(f"{one.file.name} and {other.file.name} overlap in time: "
                        "give logs that follow one another")
    if ordered != dated:
        names = ", ".join(one.file.name for one in ordered)
        say(f"the logs are read in the order of their times: {names}")
    return [one.file for one in ordered] + [file for file, one in zip(files, found) if one is None]
