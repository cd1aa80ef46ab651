"""What a preview is tried on: a script, or one made of logs."""
import argparse
import shutil
from array import array
from collections.abc import Callable
from dataclasses import dataclass
from pathlib import Path

from ..common.exit_status import UsageFault
from ..common.files import STDIN, is_packed, open_input, plain_file
from ..log.log_files import Logs
from ..log.log_forms import open_log
from ..log.log_to_script import sum_up, write_script
from ..log.options import given_options
from ..log.recording import KeptSteps, Recorder, record
from ..log.script_writer import Writer
from ..script.file_kinds import HEAD, kind
from .kept_folder import SCRIPT, STEPS

KINDS = {"a script", "JSON", "an output of mqroute"}  # which begin as a script may


@dataclass
class Source:
    """A file under the name that was given, and where it can be read more than once, unpacked
    where it is a script."""
    name: str
    path: str
    is_script: bool


@dataclass
class Reading:
    """Of the logs that a script is made of."""
    reader: Recorder
    steps: KeptSteps
    logs: Logs
    places: "array[int]"  # by lines of the script, those of the logs

    def where(self, line: int) -> str:
        """The file and line of a log for a line of the script; empty where it is of before them."""
        place = self.places[line - 1]
        return self.logs.where(place) if place else ""


@dataclass
class Script:
    name: str  # as it is shown
    path: str
    is_file: bool  # whether it can be read later, under its name
    is_made: bool = False  # of a log
    reading: Reading | None = None  # to see whether a list was in force


def source(name: str, folder: Path, number: int) -> Source:
    """Looks at how the file begins. What can't be read twice is copied into the folder."""
    path = name
    if name == STDIN or not plain_file(name):
        path = str(folder / f"input-{number}")
        unpack(name, path)
    with open_log(path) as stream:  # a log may stand in JSON
        head = stream.peek(HEAD)[:HEAD]
    return Source(name, path, kind(head) in KINDS)


def unpack(name: str, path: str) -> None:
    with open_input(name) as stream, open(path, "xb") as copy:
        shutil.copyfileobj(stream, copy)


def sources_of(options: argparse.Namespace, folder: Path) -> list[Source]:
    """A script, or logs. Raises UsageFault where it is something else."""
    sources = [source(name, folder, number) for number, name in enumerate(options.source)]
    if any(one.is_script for one in sources):
        if len(sources) > 1:
            raise UsageFault("needs one script, or one log or more")
        if options.conf is not None:
            raise UsageFault("--conf needs a log")
        for name in given_options(options):
            raise UsageFault(f"{name} needs a log")
    return sources


def script_of(options: argparse.Namespace, sources: list[Source], folder: Path,
              before_notes: Callable[[], None]) -> Script:
    """The script that was given, or the one of the logs, which is written into the folder. What of
    these isn't in it is noted on standard error, as log-to-script does."""
    if not sources[0].is_script:
        return made(options, sources, folder, before_notes)
    [one] = sources
    if is_packed(one.path):  # mqroute reads no packed files
        unpack(one.path, str(folder / "unpacked"))
        return Script(one.name, str(folder / "unpacked"), True)
    return Script(one.name, one.path, one.path == one.name)


def made(options: argparse.Namespace, sources: list[Source], folder: Path,
         before_notes: Callable[[], None]) -> Script:
    copied = {one.name: one.path for one in sources}
    logs = Logs([one.name for one in sources], not options.no_inference, options.time_format,
                copied)
    path, steps, reading = folder / SCRIPT, KeptSteps(str(folder / STEPS)), None
    found: Writer
    with open(path, "xb") as out:
        if options.no_check and options.by_conf is None:
            found, written = write_script(options, logs, out)
        else:
            wanted = options.by_conf.recorder() if options.by_conf else Recorder
            found, places = record(wanted, options, logs, out, steps)
            reading, written = Reading(found, steps, logs, places), len(places)
    before_notes()
    sum_up(found, logs, written)
    name = "the script of " + ", ".join(options.source)
    return Script(name, str(path), False, True, reading)
