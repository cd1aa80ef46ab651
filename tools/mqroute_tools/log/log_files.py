"""The log files that a tool reads, one after another, some of them twice."""
from collections.abc import Iterator, Mapping
from typing import BinaryIO

from ..common import temporary
from ..common.exit_status import Fault
from ..common.files import STDIN, at, open_input, plain_file
from ..script.file_kinds import HEAD, LOG, wrong
from .conversion import Converter
from .file_order import LogFile, in_order
from .log_forms import open_log

PIECE = 1 << 20


class Logs:
    """Log files, and `-` for standard input, in the order of their times.

    What can't be read twice is copied where it is to be; `copied` has the copies that are there.
    """

    def __init__(self, names: list[str], twice: bool = True, form: str | None = None,
                 copied: Mapping[str, str] = {}) -> None:
        self.form = form
        self.starts: list[tuple[int, str]] = []  # how many lines were read before each file
        self.head, self.headed = b"", ""  # how the first file begins that isn't empty, and its name
        paths = [copied.get(name, name) for name in names or [STDIN]]
        self.files = [LogFile(self.copy(path) if twice and not plain_file(path) else path, name)
                      for path, name in zip(paths, names or [STDIN])]
        if len(self.files) > 1 and all(plain_file(file.path) for file in self.files):
            self.files = in_order(self.files, form)

    def copy(self, name: str) -> str:
        copy = temporary.file(self)
        with open_input(name) as stream:
            while piece := stream.read(PIECE):
                copy.write(piece)
        copy.flush()
        return copy.name

    def streams(self, reader: Converter | None = None) -> Iterator[BinaryIO]:
        """The files, opened, without what stands around their lines; with who reads them, so that
        `where` knows it."""
        for path, name in self.files:
            stream = open_log(path, self.form)
            if not self.head:
                self.head, self.headed = stream.peek(HEAD)[:HEAD], name
            if reader:
                self.starts.append((reader.place, name))
            yield stream

    def where(self, place: int) -> str:
        """The file and line of what was read as this line."""
        starts = (start for start in reversed(self.starts) if start[0] < place)
        before, name = next(starts, self.starts[0])
        return at(name, place - before)

    def wrong(self) -> Fault:
        """That no line is one of mosquitto's."""
        hints = {LOG: "give --time-format for what its lines begin with"}
        return wrong(self.headed, self.head, "no line is read as mosquitto's", hints)
