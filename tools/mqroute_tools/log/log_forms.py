"""What containers, journals and collectors write around the lines of a log, and how it is taken
off: one line for each line, so that the numbers of lines stay."""
import io
import json
import re
from calendar import timegm
from collections.abc import Callable, Iterable, Sequence
from datetime import datetime
from typing import TYPE_CHECKING, NamedTuple

from ..common.files import open_input
from ..script.syslog import PREFIX
from .time_stamps import EPOCH, ISO, LOOKED_AT

if TYPE_CHECKING:
    from _typeshed import WriteableBuffer

HEAD = 1 << 16  # bytes in which the first lines are looked for
PIECE = 1 << 16


class Bare(NamedTuple):
    """A line without what a form puts around it, and when it was written, if the form says so."""
    text: str
    time: int | None = None


Form = Callable[[str], Bare | None]  # None: the line isn't of this form

ZONE = r"Z|[+-]\d\d:?\d\d"
TIME = rf"\d{{4}}-\d\d-\d\dT\d\d:\d\d:\d\d(?:\.\d+)?(?:{ZONE})"
TIMED = re.compile(rf"(\d{{4}}-\d\d-\d\dT\d\d:\d\d:\d\d)(?:\.\d+)?({ZONE})")
COLOUR = re.compile(r"\x1b\[[\d;]*m")
PLAIN_ENDS = "\x1b[0m", "\x1b[m"  # how a coloured line ends


def seconds(stamp: str) -> int | None:
    """Of a time of ISO 8601 with a zone; a fraction is left out."""
    found = TIMED.fullmatch(stamp)
    if found is None:
        return None
    try:
        time = datetime.fromisoformat(found[1] + found[2].replace("Z", "+00:00"))
    except ValueError:
        return None
    return timegm(time.utctimetuple())


def behind(pattern: str) -> Form:
    """What stands behind a prefix; its first group, if it has one, is a time."""
    compiled = re.compile(pattern)

    def bare(line: str) -> Bare | None:
        found = compiled.match(line)
        if found is None:
            return None
        return Bare(line[found.end():], seconds(found[1]) if compiled.groups else None)
    return bare


def uncoloured(line: str) -> Bare | None:
    if COLOUR.match(line) or line.endswith(PLAIN_ENDS):
        return Bare(COLOUR.sub("", line))
    return None


def members(line: str) -> dict[str, object]:
    """Of a JSON object."""
    if not line.startswith("{"):
        return {}
    try:
        value = json.loads(line)
    except (ValueError, RecursionError):
        return {}
    return value if isinstance(value, dict) else {}


def of_docker(line: str) -> Bare | None:
    """`{"log":"1795359139: ..\\n","stream":"stderr","time":".."}`: a file of docker's own."""
    found = members(line)
    text, time = found.get("log"), found.get("time")
    if not isinstance(text, str):
        return None
    return Bare(one_line(text), seconds(time) if isinstance(time, str) else None)


def one_line(text: str) -> str:
    return text.rstrip("\r\n").replace("\n", " ")


def of_journal(line: str) -> Bare | None:
    """As `journalctl -o json` has a line, in the words of `-o short-unix`: a reader of these knows
    other programs."""
    found = members(line)
    text, time = found.get("MESSAGE"), found.get("__REALTIME_TIMESTAMP")
    if isinstance(text, list):  # bytes that aren't UTF-8
        try:
            text = bytes(text).decode("utf-8", "surrogateescape")
        except (TypeError, ValueError):
            return None
    if not isinstance(text, str) or not isinstance(time, str) or not time.isdecimal():
        return None
    program = found.get("SYSLOG_IDENTIFIER") or found.get("_COMM") or "?"
    name = str(program).replace(" ", "-")
    return Bare(f"{int(time) // 1_000_000}.0 host {name}: {one_line(text)}")


RFC_5424 = re.compile(rf"<\d{{1,3}}>1 ({TIME}) (\S+) (\S+) \S+ \S+ (?:-|(?:\[.*?\])+) ?\ufeff?")


def of_syslog(line: str) -> Bare | None:
    """As RFC 5424 has a line, in the words of the older syslog."""
    found = RFC_5424.match(line)
    if found is None:
        return None
    return Bare(f"{found[1]} {found[2]} {found[3]}: {line[found.end():]}")


CSV = re.compile(rf'"?({TIME})"?,"(.*)"')


def of_csv(line: str) -> Bare | None:
    """A time, and the line in quotes, as Loki and others export it."""
    found = CSV.fullmatch(line)
    return Bare(found[2].replace('""', '"'), seconds(found[1])) if found else None


# What stands around what: a form is looked for in what the others leave.
FORMS: tuple[tuple[str, Form], ...] = (
    ("colours", uncoloured),
    ("docker's JSON files", of_docker),
    ("journalctl -o json", of_journal),
    ("docker compose logs", behind(r"[A-Za-z0-9][\w.-]* +\| ")),
    ("kubectl logs --prefix", behind(r"\[pod/[^]\s]+\] ")),
    ("files of container runtimes", behind(rf"({TIME}) (?:stdout|stderr) [FP] ")),
    ("syslog of RFC 5424", of_syslog),
    ("CSV with a time", of_csv),
    ("docker logs -t", behind(rf"({TIME}) (?!\S+ [^\s:\[]+(?:\[\d+\])?: )")),
)


def most(found: Iterable[object], lines: Sequence[object]) -> bool:
    return 2 * sum(1 for one in found if one) > len(lines)


class Around:
    """What stands around the lines of one file, by most of the first of them."""

    def __init__(self, lines: Sequence[str], has_form: bool = False) -> None:
        """`has_form`: the times of mosquitto's own have a form that was given."""
        self.forms: list[Form] = []
        self.names: list[str] = []
        while not is_read(lines) and (form := self.next(lines)):
            lines = [(form(line) or Bare(line)).text for line in lines]
        self.timed = not (has_form or is_read(lines))  # else the lines have times of their own

    def next(self, lines: Sequence[str]) -> Form | None:
        for name, form in FORMS:
            if name not in self.names and most(map(form, lines), lines):
                self.forms.append(form)
                self.names.append(name)
                return form
        return None

    def bare(self, line: str) -> str:
        """The line alone. Where it has no time of its own the last that stood around it comes
        first, as mosquitto would write it."""
        time = None
        for form in self.forms:
            found = form(line)
            if found:
                line, time = found.text, found.time or time
        return f"{time}: {line}" if self.timed and time is not None else line


def is_read(lines: Sequence[str]) -> bool:
    """Whether most have a stamp of mosquitto's own, or one of the older syslog."""
    return most((EPOCH.match(line) or ISO.match(line) or PREFIX.match(line) for line in lines),
                lines)


class BareLines(io.RawIOBase):
    """A log, with nothing around its lines."""

    def __init__(self, stream: io.BufferedReader, around: Around) -> None:
        self.stream, self.around = stream, around
        self.rest = b""  # that is ready
        self.cut = b""  # the beginning of a line

    def readable(self) -> bool:
        return True

    def seekable(self) -> bool:
        return self.stream.seekable()

    def seek(self, place: int, whence: int = 0) -> int:
        """Places are those of the file. The line that is met may be cut."""
        self.rest = self.cut = b""
        return self.stream.seek(place, whence)

    def readinto(self, buffer: "WriteableBuffer") -> int:
        room = memoryview(buffer).cast("B")
        while not self.rest and self.more():
            pass
        piece = self.rest[:len(room)]
        room[:len(piece)] = piece
        self.rest = self.rest[len(piece):]
        return len(piece)

    def more(self) -> bool:
        """Makes the next lines ready."""
        data = self.stream.read1(PIECE)
        end = data.rfind(b"\n") + 1
        whole = self.cut + data[:end] if end else b""
        self.cut = data[end:] if end else self.cut + data
        if not data:
            whole, self.cut = self.cut, b""
        self.rest = b"\n".join(map(self.line, whole.split(b"\n"))) if whole else b""
        return bool(data) or bool(self.rest)

    def line(self, line: bytes) -> bytes:
        text = line.rstrip(b"\r").decode("utf-8", "surrogateescape")
        return self.around.bare(text).encode("utf-8", "surrogateescape") if line else line

    def close(self) -> None:
        self.stream.close()
        super().close()


def first_lines(head: bytes) -> list[str]:
    """Of how a file begins; the last may be cut, and counts only where it is the only one."""
    lines = head.split(b"\n")
    found = lines[:-1][:LOOKED_AT] or lines
    return [line.rstrip(b"\r").decode("utf-8", "replace") for line in found if line.strip()]


def open_log(name: str, time_format: str | None = None) -> io.BufferedReader:
    """As `open_input`, without what stands around the lines."""
    stream = open_input(name)
    around = Around(first_lines(stream.peek(HEAD)[:HEAD]), time_format is not None)
    return io.BufferedReader(BareLines(stream, around), PIECE) if around.forms else stream
