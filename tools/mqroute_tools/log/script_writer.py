"""The script of a log, with what it begins with: by a second reading, unless the log begins with
the broker's start."""
import argparse
import json
from collections.abc import Callable
from contextlib import suppress
from typing import TypeVar

from ..common.exit_status import Fault
from ..common.files import at, open_input
from ..script.file_kinds import kind
from ..script.output import Command, is_blank
from ..script.sessions import FOREVER
from . import mosquitto_log as log
from .broker_state import UNSHOWN, State
from .clients import MQTT_3_1, NONE, Arrival
from .connections import connections
from .conversion import Converter
from .inference import Beginning, beginning
from .log_files import Logs


class Older(Fault):
    """Of a log that begins with the broker's start: it shows an older session or message."""


class Writer(Converter):
    """Converts, and counts what explains the broker's copies."""

    def __init__(self, session_expiry: int | None, form: str | None, begins: Beginning) -> None:
        super().__init__(session_expiry or 0, form)
        self.given = session_expiry is not None
        self.begins = begins
        self.state: State | None = None  # that the commands lead to, if it is wanted
        self.unshown = False  # whether the session that begins is kept
        self.for_will = False
        self.topics: set[str] = set(begins.state.retained)  # that the script publishes
        self.touched: set[str] = set()  # of them, those whose retained message it sets or clears
        self.explained = [0, 0, 0]
        self.logs: Logs | None = None
        self.know(begins.state, begins.inferred)
        self.say_before()

    def say_before(self) -> None:
        for client in self.begins.inferred:
            self.seen_before.add(client)
            self.notes.add("clients were connected before the log began: their subscriptions are "
                           "inferred from what they were sent", client)
        for client in self.begins.nameless:
            self.notes.add(
                "of them have no user name in the log, and so none in the script", client)

    def start_with(self, follow: bool) -> None:
        """Writes the commands of before the log."""
        if follow:
            self.state = State()
        for command in self.begins.state.commands():
            self.emit(0, command)
        for client in self.state.clients.values() if self.state else ():
            client.older = True

    def emit(self, place: int, command: Command, routed: bool | None = True) -> None:
        written = len(self.commands)
        super().emit(place, command, routed)
        if command["do"] == "publish":
            self.publishes(command["topic"])
            if command.get("retain") and routed is not False:
                self.touched.add(command["topic"])
        if self.state is not None:
            for _, each in self.commands[written:]:
                self.follow(self.state, each, routed)

    def follow(self, state: State, command: Command, routed: bool | None) -> None:
        if command["do"] == "connect":
            if self.for_will and command["client"] in state.clients:
                return
            command = command | ({"session_expiry": UNSHOWN} if self.unshown else {})
        state.follow(command, routed)

    def come_for_will(self, place: int, command: Command) -> None:
        """The state keeps what the session has: it may be there when the client returns."""
        self.for_will = True
        super().come_for_will(place, command)
        self.for_will = False

    def shows_older(self) -> None:
        """A line shows of what was there before the log, or may do so."""
        if self.begins.fresh:
            raise Older

    def was_before(self, client: str) -> None:
        self.shows_older()
        super().was_before(client)

    def connect(self, arrival: Arrival, client: str, user: str | None, clean: bool, protocol: int,
                present: bool) -> None:
        old = self.connected.get(client) or self.away.get(client)
        unshown = old is not None and protocol == MQTT_3_1 and not clean  # whether it is resumed
        if (present or unshown) and not (old and old.kept):
            self.shows_older()
        super().connect(arrival, client, user, clean, protocol, present)

    def finish(self) -> None:
        super().finish()
        if self.logs and not self.is_log:
            raise self.logs.wrong()

    def expiry(self, place: int, client: str, clean: bool, protocol: int) -> int:
        """As the next CONNACK shows it: whether the session was there."""
        self.unshown = False
        if protocol < 5 or self.given:
            return super().expiry(place, client, clean, protocol)
        if place in self.begins.kept:
            return FOREVER
        self.unshown = place not in self.begins.ended
        if not clean and place not in self.begins.ended:
            self.notes.add("MQTT 5 sessions may be kept after their connection, and no later "
                           "CONNACK shows: they are not (--session-expiry)",
                           f"line {place}: {client}")
        return 0

    def closed(self, client: str) -> None:
        if self.place not in self.begins.earlier:
            super().closed(client)

    def taken_over(self, client: str) -> None:
        """The copies of the will, if there is to be one, stand before the line
        that shows whether there is."""
        super().taken_over(client)
        will = self.connected[client].will
        if will:
            self.publishes(will["topic"])

    def copied(self, sent: log.Publish) -> bool:
        if not super().copied(sent):
            return False
        client, dup, _, retain, _, topic, _, _ = sent
        if not dup:
            self.explain(client, topic)
            if retain and topic not in self.touched:
                self.shows_older()
        return True

    def publishes(self, topic: str) -> None:
        """The script may explain copies of the topic."""
        self.topics.add(topic)

    def explain(self, client: str, topic: str) -> None:
        """Counts a copy by what explains it."""
        session = self.connected.get(client)
        known = session is not None and topic in self.topics
        self.explained[session.reason(topic) if session and known else NONE] += 1

    def unsubscribe(self, place: int, client: str, name: str) -> None:
        super().unsubscribe(place, client, name)
        for other in self.begins.ends.pop(place, ()):
            super().unsubscribe(place, client, other)


Kind = TypeVar("Kind", bound=Writer)
Result = TypeVar("Result")
Makes = Callable[[int | None, str | None, Beginning], Kind]


def read_state(name: str | None) -> State:
    state = State()
    if name is None:
        return state
    with open_input(name) as stream:
        for number, line in enumerate(stream, 1):
            if is_blank(line):
                continue
            try:
                state.follow(json.loads(line))
            except (ValueError, KeyError, TypeError, AttributeError) as fault:
                seems = f": looks like {kind(line)}" if kind(line) else ""
                raise Fault(f"{at(name, number)}: no command of a script{seems}") from fault
    return state


def read_logs(wanted: Makes[Kind], options: argparse.Namespace, logs: Logs,
              work: Callable[[Kind], Result], follow: bool = False,
              again: bool = True) -> tuple[Kind, Result]:
    """A writer of the logs, and what `work` makes of them by it.

    Logs that begin with the broker's start are taken to show nothing older, and read once, if
    `work` can be done `again`: it is, with another writer, where something does show it. That may
    first lead to another fault, since the script is another one.
    """
    def read(begins: Beginning) -> tuple[Kind, Result]:
        found = wanted(options.session_expiry, options.time_format, begins)
        found.logs = logs
        found.start_with(follow)
        return found, work(found)

    if options.no_inference:
        return read(Beginning(read_state(options.begin)))
    if again and options.begin is None:
        fresh = connections(logs.streams(), options.time_format)
        with suppress(Fault):
            if fresh:
                return read(fresh)
        logs.starts.clear()
    state = read_state(options.begin)
    return read(beginning(logs.streams(), options.time_format, state))
