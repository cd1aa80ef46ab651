"""The files that a tool reads and writes: packed or not, standard input, none of them both."""
import errno
import gzip
import io
import os
import stat
import sys
import zlib
from collections.abc import Iterable, Iterator, Mapping
from contextlib import contextmanager, suppress
from typing import TYPE_CHECKING, BinaryIO, TextIO, cast

from .exit_status import Fault, UsageFault
from .messages import STDIN as STDIN, named

if TYPE_CHECKING:
    from _typeshed import WriteableBuffer

GZIP = b"\x1f\x8b"  # how a file begins that gzip packed
PIECE = 1 << 16
# bytes of a line: far over those of a log, and of what mqroute reads (1 MiB) and writes
LONGEST_LINE = 1 << 24


class Lines(io.RawIOBase):
    """What a file holds. A line that doesn't end, as that of /dev/zero, is refused."""

    def __init__(self, plain: io.BufferedReader, name: str) -> None:
        self.plain, self.name = plain, name
        self.line, self.begun = 1, 0  # the line that has begun, and how many of its bytes were read

    def readable(self) -> bool:
        return True

    def seekable(self) -> bool:
        return self.plain.seekable()

    def seek(self, place: int, whence: int = 0) -> int:
        self.line, self.begun = 1, 0
        return self.plain.seek(place, whence)

    def readinto(self, buffer: "WriteableBuffer") -> int:
        room = memoryview(buffer).cast("B")
        size = self.piece(room)
        self.count(room[:size].tobytes())
        return size

    def piece(self, room: memoryview) -> int:
        return self.plain.readinto1(room)

    def count(self, data: bytes) -> None:
        end = data.rfind(b"\n") + 1
        self.line += data.count(b"\n")
        self.begun = len(data) - end + (0 if end else self.begun)
        if self.begun > LONGEST_LINE:
            raise Fault(f"{at(self.name, self.line)}: it has more than {LONGEST_LINE:,} bytes, and "
                        "no end")

    def close(self) -> None:
        self.plain.close()
        super().close()


class Unpacked(Lines):
    """What a file packed by gzip holds. Where it is damaged, its name is said."""

    def __init__(self, packed: io.BufferedReader, name: str) -> None:
        super().__init__(packed, name)
        self.stream = gzip.GzipFile(fileobj=packed)

    def seekable(self) -> bool:
        return False

    def piece(self, room: memoryview) -> int:
        try:
            data = self.stream.read1(len(room))
        except (EOFError, gzip.BadGzipFile, zlib.error) as fault:
            raise Fault(f"{named(self.name)}: packed by gzip, and damaged: {fault}") from fault
        room[:len(data)] = data
        return len(data)


def standard_input() -> io.BufferedReader:
    if sys.stdin is None:
        raise Fault("standard input is closed")
    # the type of sys.stdin says less than it is
    return cast(io.BufferedReader, sys.stdin.buffer)


def open_input(name: str) -> io.BufferedReader:
    """A file, packed by gzip or not; `-` is standard input."""
    plain = standard_input() if name == STDIN else open(name, "rb")
    return io.BufferedReader((Unpacked if begins_packed(plain) else Lines)(plain, name), PIECE)


def begins_packed(stream: io.BufferedReader) -> bool:
    return stream.peek(len(GZIP))[:len(GZIP)] == GZIP


def is_packed(path: str) -> bool:
    """Whether gzip packed the file, so that mqroute and mqroute-acl can't read it."""
    with open(path, "rb") as stream:
        return begins_packed(stream)


def open_text(name: str) -> TextIO:
    return io.TextIOWrapper(open_input(name), encoding="utf-8", newline="\n")


def at(name: str, line: int) -> str:
    """The place of a line, as editors take it."""
    return f"{named(name)}:{line}"


def decoded(data: bytes, name: str) -> str:
    """The text of a file. Raises Fault, with the line, where it is not UTF-8."""
    try:
        return data.decode("utf-8")
    except UnicodeDecodeError as fault:
        line = data.count(b"\n", 0, fault.start) + 1
        raise Fault(f"{at(name, line)}: not UTF-8") from fault


# -- not the same file

def plain_file(name: str | int) -> os.stat_result | None:
    """Of what name it ever is; nothing of pipes and devices."""
    try:
        found = os.fstat(name) if isinstance(name, int) else os.stat(name)
    except OSError:
        return None
    return found if stat.S_ISREG(found.st_mode) else None


def refuse_stdin_twice(read: list[str | None]) -> None:
    if read.count(STDIN) > 1:
        raise UsageFault("standard input can be read once")


def keep_apart(read: Iterable[str | None], written: Mapping[str, str | None] = {}) -> None:
    """Refuses a file that is read and written: `written` by their options, and standard output."""
    sources = {name: plain_file(0 if name == STDIN else name) for name in read if name is not None}
    targets = {f"{option} {name}": plain_file(name)
               for option, name in written.items() if name is not None}
    output = plain_file(1)
    for said, target in targets.items():
        if target and output and os.path.samestat(target, output):
            raise Fault(f"{said}: standard output goes to this file too")
    for said, target in (targets | {"standard output": output}).items():
        for name, source in sources.items():
            if target and source and os.path.samestat(target, source):
                raise Fault(f"{said}: it would overwrite {named(name)}, which is read too")


@contextmanager
def whole(name: str) -> Iterator[BinaryIO]:
    """A file that is written whole or not at all: beside its place, and then renamed.

    What is no plain file, or stands in a folder where none can be made, is written where it is.
    """
    old, path = plain_file(name), os.path.realpath(name)
    if old and not os.access(name, os.W_OK):
        raise PermissionError(errno.EACCES, os.strerror(errno.EACCES), name)
    beside = os.path.join(os.path.dirname(path), f".mqroute-{os.getpid()}.part")
    try:
        out = None if os.path.exists(name) and not old else open(beside, "xb")
    except OSError as fault:
        if not old:
            raise type(fault)(fault.errno, fault.strerror, name) from fault
        out = None
    if out is None:
        with open(name, "wb") as there:
            yield there
        return
    try:
        with out:
            yield out
        if old:
            os.chmod(beside, stat.S_IMODE(old.st_mode))
        os.replace(beside, path)
    except BaseException:
        with suppress(FileNotFoundError):
            os.unlink(beside)
        raise
