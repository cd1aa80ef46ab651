"""One reading of a log for both: its script, and its steps for a comparison with what mqroute
answers to that script."""
import argparse
import gc
import marshal
from array import array
from collections import defaultdict
from collections.abc import Callable, Iterator
from contextlib import contextmanager
from typing import IO

from . import mosquitto_log as log
from .clients import Arrival
from .comparison import Comparison
from .inference import Beginning
from .log_files import Logs
from .log_to_script import text_of
from .script_writer import Makes, Writer, read_logs
from .step_reader import Watcher, answered, steps
from .steps import Flat, Step, step_of

SHORTLY = 1000  # lines within which a client that resumes is sent what waited
BATCH = 256  # steps that are kept at once
SIZE = 8  # bytes of the size of a batch
REREADS = "Reloading config."


class Recorder(Watcher):
    """Converts, and keeps what a comparison needs to know of the log as a whole."""

    def __init__(self, session_expiry: int | None, form: str | None, begins: Beginning) -> None:
        self.incoming = 0  # publishes that clients sent
        # lines at which the broker read its configuration again, or began anew
        self.reread: list[int] = []
        self.restarts: list[int] = []
        self.begins_anew = False  # whether the log begins with the broker's start
        self.users: set[str] = set()  # of clients that connect
        self.resumptions: defaultdict[str, list[int]] = defaultdict(list)  # where clients resume
        self.qos_0: set[str] = set()  # topics that are published with QoS 0
        super().__init__(session_expiry, form, begins)

    def publishes(self, topic: str) -> None:
        if not self.begins.fresh:
            Writer.publishes(self, topic)

    def explain(self, client: str, topic: str) -> None:
        """Of copies of a log that may show older subscriptions it is said what explains them."""
        if not self.begins.fresh:
            Writer.explain(self, client, topic)

    def take(self, found: log.Publish, routed: bool) -> None:
        self.incoming += 1
        if found.qos == 0:
            self.qos_0.add(found.topic)
        super().take(found, routed)

    def noted(self, text: str) -> bool:
        if text.startswith(REREADS):
            self.reread.append(self.place)
        return super().noted(text)

    def start(self) -> None:
        if self.incoming:
            self.reread.append(self.place)
            self.restarts.append(self.place)
        elif not self.seen_before:
            self.begins_anew = True
        super().start()

    def connect(self, arrival: Arrival, client: str, user: str | None, clean: bool, protocol: int,
                present: bool) -> None:
        if user:
            self.users.add(user)
        if present:
            self.resumptions[client].append(arrival.place)
        super().connect(arrival, client, user, clean, protocol, present)

    def may_have_waited(self, client: str, topic: str, place: int) -> bool:
        """Whether a copy of QoS 0 at this line may be one that waited for its client, where a
        broker keeps such: it resumed shortly before."""
        places = self.resumptions.get(client, ())
        return topic in self.qos_0 and any(0 <= place - each < SHORTLY for each in places)

    def shows_all(self) -> bool:
        """Whether nothing older than the log matters."""
        return self.begins.fresh or (self.begins_anew and not self.seen_before)


class KeptSteps:
    """The steps of one reading, in a file of its own."""

    def __init__(self, path: str) -> None:
        self.path = path

    @contextmanager
    def written(self) -> Iterator[Callable[[Step], None]]:
        """Gives what takes each step, in place of those of an earlier reading."""
        batch: list[Flat] = []
        with open(self.path, "wb") as out:
            def write() -> None:
                data = marshal.dumps(batch)
                out.write(len(data).to_bytes(SIZE) + data)
                batch.clear()

            def add(step: Step) -> None:
                batch.append(step.flat())
                if len(batch) == BATCH:
                    write()
            yield add
            write()

    def __iter__(self) -> Iterator[Step]:
        with open(self.path, "rb") as stream:
            # marshal itself reads a file byte by byte
            while size := int.from_bytes(stream.read(SIZE)):
                yield from map(step_of, marshal.loads(stream.read(size)))


@contextmanager
def uncollected() -> Iterator[None]:
    """Next to nothing here refers to itself, and to look for it takes a third of the time."""
    was_on = gc.isenabled()
    gc.disable()
    try:
        yield
    finally:
        if was_on:
            gc.enable()


def record(wanted: "Makes[Recorder]", options: argparse.Namespace, logs: Logs, out: IO[bytes],
           kept: KeptSteps) -> tuple[Recorder, "array[int]"]:
    """Writes the commands of the logs to one file of its own, and the steps to another; gives what
    read them, and from which line of the logs each command came (0: of before them)."""
    def write(found: Recorder) -> "array[int]":
        out.seek(0)
        out.truncate()
        places = array("Q")
        with kept.written() as add:
            for step in steps(found, logs.streams(found)):
                for command in step.commands:
                    out.write(text_of(command).encode("utf-8") + b"\n")
                    places.append(step.place)
                add(step)
        return places
    with uncollected():
        return read_logs(wanted, options, logs, write)


def compared(kept: KeptSteps, output: str) -> Comparison:
    """With what mqroute answered to the script."""
    found = Comparison()
    with uncollected():
        for step in answered(kept, output):
            found.add(step)
    return found
