"""The clients as the script has them: the commands of their coming and going."""
import re
from collections.abc import Mapping
from functools import lru_cache
from typing import Any

from ..script.commands import connect_command
from ..script.output import Command
from ..script.sessions import FOREVER
from ..script.topics import matches, plain_filter
from .broker_state import State
from .conversion_notes import Notes

MQTT_3_1 = 1  # as the log has it: 1 is 3.1, 2 is 3.1.1, 5 is 5


SEEN, INFERRED, NONE = range(3)  # what explains a copy
REASONS = 10_000  # of which each client's last ones are remembered
REMEMBERED = 1 << 12  # filters with a topic


class Inferred(dict[str, Any]):
    """A command that no line of the log shows by itself."""


class Session:
    """A client's state that later lines need."""
    __slots__ = ("will", "leaves", "unreleased", "kept", "user", "filters", "inferred", "reasons",
                 "taken", "websocket", "bridge", "before", "asked", "expiry", "arrived", "unsure",
                 "renamed")

    def __init__(self, will: Command | None = None, kept: bool = False,
                 user: str | None = None) -> None:
        self.will = will
        self.leaves = False  # sent DISCONNECT: the will is not published
        self.unreleased: dict[int, Command] = {}  # QoS 2, routed when the sender releases them
        self.kept = kept
        self.user = user
        self.filters: set[str] = set()
        self.inferred: set[str] = set()  # filters of before the log
        self.reasons: dict[str, int] = {}  # of topics, as long as the filters stay
        self.taken = 0  # the line at which another connection took it over
        self.websocket = False
        self.bridge = False
        self.before = False  # older than the log
        self.asked: Command | None = None  # a will that the last DISCONNECT may have asked for
        self.expiry = 0
        self.arrived = False  # in this log, which so shows whether it came by a websocket
        self.unsure = False  # took over from one that didn't
        self.renamed: set[int] = set()  # of `unreleased`: received under another user name

    def add(self, name: str) -> None:
        self.filters.add(name)
        self.inferred.discard(name)
        self.reasons.clear()

    def drop(self, name: str) -> None:
        self.filters.discard(name)
        self.inferred.discard(name)
        self.reasons.clear()

    def take_over(self, old: "Session") -> None:
        """What a resumed session has of the older connection."""
        self.unreleased, self.filters, self.inferred = old.unreleased, old.filters, old.inferred
        self.asked = old.asked
        self.renamed = old.renamed if self.user == old.user else set(old.unreleased)

    def reason(self, topic: str) -> int:
        """What explains a copy of the topic."""
        found = self.reasons.get(topic)
        if found is None:
            if len(self.reasons) >= REASONS:
                self.reasons.clear()
            found = self.reasons[topic] = (
                SEEN if any_matches(self.filters, topic)
                else INFERRED if any_matches(self.inferred, topic) else NONE)
        return found


def any_matches(names: set[str], topic: str) -> bool:
    for name in names:
        if covers(name, topic):
            return True
    return False


@lru_cache(REMEMBERED)
def covers(name: str, topic: str) -> bool:
    """Whether a filter matches a topic, or the filter of a shared subscription."""
    return matches(plain_filter(name), topic)


class Arrival:
    """A connect of which the client id is known for certain only from the CONNACK that follows."""
    __slots__ = ("place", "text", "will", "will_head", "websocket", "bridge", "port")

    def __init__(self, place: int, text: str, websocket: bool = False, bridge: bool = False,
                 port: int = 0) -> None:
        self.place, self.text, self.websocket, self.bridge = place, text, websocket, bridge
        self.port = port  # of the listener, where the log has it
        self.will: Command | None = None
        self.will_head: re.Match[str] | None = None


class Clients:
    """Writes commands: `commands` holds those that the last line gave, each
    with its place in the log."""

    def __init__(self, session_expiry: int) -> None:
        self.session_expiry = session_expiry
        self.now: int | None = None  # what the script's clock stands for
        self.time: int | None = None
        self.place = 0
        self.commands: list[tuple[int, Command]] = []
        self.connected: dict[str, Session] = {}
        self.away: dict[str, Session] = {}
        self.closing: dict[str, int] = {}  # websockets whose end is yet to be logged
        self.departed: dict[str, Session] = {}  # websockets with a will that sent DISCONNECT
        self.ended: str | None = None  # whose end the lines show, as long as only copies follow
        self.seen_before: set[str] = set()
        self.notes = Notes()

    def emit(self, place: int, command: Command, routed: bool | None = True) -> None:
        """Writes a command; `routed` is whether the broker routed a publish, None
        where the log doesn't show it."""
        if self.time != self.now:
            self.advance(place)
        self.commands.append((place, command))

    def advance(self, place: int) -> None:
        """The script's clock goes on to the time of the log."""
        if self.time is not None:
            if self.now is not None and self.time > self.now:
                self.commands.append((place, {"do": "advance", "seconds": self.time - self.now}))
            self.now = max(self.now or self.time, self.time)

    def session(self, client: str) -> Session:
        """The client's session; of one that was connected before the log began, a new one."""
        found = self.connected.get(client)
        if found is None:
            self.was_before(client)
            away = self.away.pop(client, None)
            found = self.connected[client] = away or Session()
            self.emit(self.place, Inferred({"do": "connect", "client": client}))
        return found

    def was_before(self, client: str) -> None:
        if client not in self.seen_before:
            self.seen_before.add(client)
            self.notes.add("clients were connected before the log began: user name and "
                           "subscriptions are not in the script", client)

    # -- coming

    def know(self, state: State, inferred: Mapping[str, set[str]] | None = None) -> None:
        """The clients that there are before the first line; `inferred` are
        filters that no line showed."""
        for name, client in state.clients.items():
            session = Session(kept=client.expiry > 0, user=client.user)
            guessed = (inferred or {}).get(name, set())
            session.filters, session.inferred = set(client.subscriptions) - guessed, set(guessed)
            (self.connected if client.connected else self.away)[name] = session

    def connect(self, arrival: Arrival, client: str, user: str | None, clean: bool, protocol: int,
                present: bool) -> None:
        command = connect_command(client, user)
        old = self.connected.pop(client, None)
        if old is None:
            old = self.away.pop(client, None)
        # in the script; the broker may have lost it, as by a new start
        had_one = old is not None and old.kept
        # whose CONNACK doesn't show it
        resumed = present or (had_one and not clean and protocol == MQTT_3_1)
        if not clean and (resumed or not had_one):
            command["clean"] = False
        expiry = self.expiry(arrival.place, client, clean, protocol)
        if expiry:
            command["session_expiry"] = expiry
        if present and not had_one:
            self.notes.add("sessions were resumed that the script doesn't have",
                           f"line {arrival.place}: {client}")
        if arrival.will:
            arrival.will["client"] = client
        session = self.connected[client] = Session(arrival.will, expiry > 0, user)
        session.websocket, session.bridge = arrival.websocket, arrival.bridge
        session.expiry = expiry
        session.arrived, session.unsure = True, bool(old and old.taken and not old.arrived)
        if old and resumed:
            session.take_over(old)
        elif old:
            self.unrouted(old)
            if old.taken:
                self.publish_will(old.taken, client, old, ends=True)
        self.emit(arrival.place, command)

    def expiry(self, place: int, client: str, clean: bool, protocol: int) -> int:
        """How long the session is kept after its connection. A log shows it of MQTT 3 alone."""
        return 0 if clean else FOREVER if protocol < 5 else self.session_expiry

    def taken_over(self, client: str) -> None:
        """The broker closes the connection: the will is published unless the
        next one resumes the session."""
        session = self.connected[client]
        session.taken = self.place
        if session.websocket:
            self.closing[client] = self.closing.get(client, 0) + 1

    # -- going

    def publish_will(self, place: int, client: str, session: Session, ends: bool) -> None:
        """No client gets its own will: where the session ends, a new one without
        subscriptions publishes it."""
        will, session.will = session.will, None
        if session.leaves:
            session.asked = will
        elif will:
            if ends and any(matches(plain_filter(name), will["topic"])
                            for name in session.filters | session.inferred):
                self.come_for_will(place, connect_command(client, session.user))
            self.emit(place, Inferred(will), None)

    def come_for_will(self, place: int, command: Command) -> None:
        """A connect that the broker never saw."""
        self.emit(place, Inferred(command))

    def end(self, client: str, willed: bool) -> None:
        """The connection has ended."""
        session = self.connected.pop(client)
        self.ended = client
        if willed:
            self.publish_will(self.place, client, session, not session.kept)
        session.leaves = False
        if session.kept:
            self.away[client] = session
        else:
            self.unrouted(session)
        self.emit(self.place, {"do": "disconnect", "client": client})

    def leave(self, client: str) -> None:
        """A websocket's DISCONNECT: it is sent nothing from here on. The broker logs the end of the
        connection, and publishes a will that the DISCONNECT asked for, later."""
        session = self.connected[client]
        if session.will:
            self.departed[client], session.asked = session, session.will
        self.closing[client] = self.closing.get(client, 0) + 1
        self.end(client, willed=False)
        session.leaves = True  # until a copy shows that its will was asked for

    def departed_will(self, client: str, session: Session) -> None:
        """Of a client that is gone, or that has come back meanwhile."""
        came_back = client in self.connected
        if not came_back:
            kept = {"clean": False, "session_expiry": session.expiry} if session.kept else {}
            self.come_for_will(self.place, connect_command(client, session.user) | kept)
        if session.will:
            self.emit(self.place, Inferred(session.will), None)
        if not came_back:
            self.emit(self.place, Inferred({"do": "disconnect", "client": client}))
        self.ended = client

    def closed(self, client: str) -> None:
        """A line shows that a connection of the client has ended: a websocket's, or its own."""
        if self.closing.get(client):
            self.closing[client] -= 1
            if not self.closing[client]:
                del self.closing[client]
        elif client in self.connected:
            self.end(client, willed=True)

    def expire(self, client: str) -> None:
        """The broker ended the session of a client that is away; where the script still has
        it, a clean start ends it."""
        session = self.away.pop(client, None)
        if session:
            self.unrouted(session)
            self.emit(self.place, Inferred({"do": "connect", "client": client}))
            self.emit(self.place, Inferred({"do": "disconnect", "client": client}))

    def start(self) -> None:
        """The broker starts: nobody is connected."""
        self.closing.clear()
        self.departed.clear()
        for client in list(self.connected):
            self.end(client, willed=False)

    def unrouted(self, session: Session) -> None:
        for command in session.unreleased.values():
            self.never_released(command)

    def never_released(self, command: Command) -> None:
        self.notes.add("QoS 2 publishes were never released by their sender: "
                       "neither the broker nor the script routes them",
                       f"line {self.place}: {command['client']} {command['topic']}")
