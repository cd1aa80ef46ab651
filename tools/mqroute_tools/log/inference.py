"""The first reading of a log: what shows the state that the broker had when the log began."""
from array import array
from bisect import bisect_left, insort
from collections.abc import Iterable
from dataclasses import dataclass, field
from itertools import islice
from typing import BinaryIO

from ..script.output import Command
from ..script.sessions import FOREVER
from . import mosquitto_log as log
from .broker_state import UNSHOWN, Client, State, publish
from .clients import NONE, Arrival, Session
from .conversion import Converter, placed_commands
from .inferred_subscriptions import Evidence, Inferred, Published

ALIKE = 100  # topics that are looked at for a publisher


class Places:
    """Numbers of lines, of which there may be many: eight bytes each."""

    def __init__(self) -> None:
        self.numbers = array("Q")

    def add(self, place: int) -> None:
        insort(self.numbers, place)

    def __contains__(self, place: int) -> bool:
        at = bisect_left(self.numbers, place)
        return at < len(self.numbers) and self.numbers[at] == place


@dataclass
class Beginning:
    """What the script begins with, and what later lines showed of earlier ones."""
    state: State
    # by client the filters that the log doesn't have
    inferred: dict[str, set[str]] = field(default_factory=dict)
    # at an UNSUBSCRIBE's line other filters of its client that ended with it
    ends: dict[int, list[str]] = field(default_factory=dict)
    # lines of connects whose session was resumed later, and of those whose session was not there
    kept: Places = field(default_factory=Places)
    ended: Places = field(default_factory=Places)
    nameless: set[str] = field(default_factory=set)  # clients whose user name the log doesn't have
    earlier: set[int] = field(default_factory=set)  # lines that end a connection taken over
    fresh: bool = False  # nothing in the log is to be older than its first line


class Observer(Converter):
    def __init__(self, form: str | None, begin: State) -> None:
        super().__init__(0, form)
        self.begin = begin
        self.published = Published()
        self.evidence: dict[str, Evidence] = {}
        self.users: dict[str, str | None] = {}  # of these clients, as they connect later
        self.connects: dict[str, int] = {}  # the last one's line, of clients of MQTT 5
        # older than the log: greatest QoS seen, and size
        self.retained: dict[str, tuple[int, int]] = {}
        self.touched: set[str] = set()  # topics whose retained message the log sets or clears
        self.last: Command = {"do": ""}
        self.result = Beginning(begin)
        self.kept_before: set[str] = set()
        # by client and filter, the line of the UNSUBSCRIBE of another filter
        self.ended_at: dict[tuple[str, str], int] = {}
        self.know(begin)
        self.doubtful: dict[str, tuple[int, Session]] = {}  # ends, perhaps of an older connection
        self.begun = set(begin.clients)  # whose session is the one that the script begins with
        for session in self.connected.values():
            session.kept = True  # where the state has no interval the next CONNACK shows

    def emit(self, place: int, command: Command, routed: bool | None = True) -> None:
        """The script isn't written here."""
        self.last = command
        if command["do"] == "publish" and routed is not False:
            client, topic = command["client"], command["topic"]
            if routed:
                session = self.connected.get(client)
                self.published.add(topic, client, session.user if session else None)
            if command.get("retain"):
                self.touched.add(topic)

    def expiry(self, place: int, client: str, clean: bool, protocol: int) -> int:
        return 0 if clean and protocol < 5 else FOREVER

    # -- clients of before

    def older(self, client: str, away: bool) -> Session:
        session = Session(kept=True)
        session.before = True
        self.evidence[client] = Evidence(self.published.count, True) if away else Evidence(0, False)
        return session

    def session(self, client: str) -> Session:
        """Where a client goes on after an end, a websocket had ended that it had taken over."""
        if client not in self.connected and client in self.doubtful:
            place, self.connected[client] = self.doubtful.pop(client)
            self.away.pop(client, None)
            self.result.earlier.add(place)
        if client not in self.connected:
            away = self.away.pop(client, None)
            self.connected[client] = away or self.older(client, away=False)
        return self.connected[client]

    def connect(self, arrival: Arrival, client: str, user: str | None, clean: bool, protocol: int,
                present: bool) -> None:
        if present and client not in self.connected and client not in self.away:
            self.away[client] = self.older(client, away=True)
        if present and client in self.begun and self.begin.clients[client].expiry in (0, UNSHOWN):
            self.begin.clients[client].expiry = FOREVER
        self.begun.discard(client)
        self.doubtful.pop(client, None)
        last = self.connects.pop(client, None)
        if last is not None and (present or not clean):
            (self.result.kept if present else self.result.ended).add(last)
        if protocol >= 5:
            self.connects[client] = arrival.place
        if client in self.evidence:
            self.users.setdefault(client, user)
        old = self.connected.get(client) or self.away.get(client)
        super().connect(arrival, client, user, clean, protocol, present)
        if old and old.before:
            evidence = self.evidence[client]
            evidence.leave(self.published.count)
            if present:
                self.kept_before.add(client)
                evidence.since = self.published.count
                self.connected[client].before = self.connected[client].kept = True

    def end(self, client: str, willed: bool) -> None:
        session = self.connected[client]
        if session.unsure:
            session.unsure = False
            self.doubtful[client] = (self.place, session)
        if session.before:
            self.evidence[client].leave(self.published.count)
        super().end(client, willed)

    # -- what shows

    def copied(self, sent: log.Publish) -> bool:
        if self.of_own_will(sent):
            return False
        session = self.session(sent.client)
        if sent.dup or sent.topic.startswith("$SYS/"):
            return False
        live = self.last["do"] == "publish" and self.last["topic"] == sent.topic
        explained = session.reason(sent.topic) != NONE
        if sent.retain and not live:
            if explained and sent.topic not in self.touched:
                qos, size = self.retained.get(sent.topic, (0, 0))
                self.retained[sent.topic] = (max(qos, sent.qos), sent.size)
        elif session.before:
            waited = self.last["do"] == "connect" and self.last["client"] == sent.client
            self.evidence[sent.client].add(sent, self.published.times_of(sent.topic),
                                           self.last if live else None, explained, not waited)
        return True

    def subscribe(self, place: int, client: str, name: str, qos: int) -> None:
        super().subscribe(place, client, name, qos)
        if client in self.evidence:
            self.evidence[client].say(name)

    def unsubscribe(self, place: int, client: str, name: str) -> None:
        evidence = self.evidence.get(client)
        if evidence and self.session(client).before and not name.startswith("$share/"):
            found = evidence.infer(self.published, under=name)
            self.lasts_longer(client, found)
            evidence.found += found
            for other in (i.name for i in found if i.name != name):
                self.ended_at[client, other] = place
            evidence.say(name)
        super().unsubscribe(place, client, name)

    # -- the result

    def beginning(self) -> Beginning:
        state, result = self.begin, self.result
        result.nameless = self.evidence.keys() - self.users.keys()
        for topic, (qos, size) in self.retained.items():
            client, user = self.publisher(topic)
            state.retained.setdefault(topic, (user, publish(client, topic, size, qos, True)))
        for client, evidence in self.evidence.items():
            found = self.subscriptions(client, evidence)
            result.inferred[client] = set(found)
            commands = {i.name: subscription(client, i) for i in found.values()}
            expiry = FOREVER if client in self.kept_before else 0
            state.clients[client] = Client(
                self.users.get(client), expiry, not evidence.away, None, commands)
        for (_, name), place in self.ended_at.items():
            result.ends.setdefault(place, []).append(name)
        return result

    def subscriptions(self, client: str, evidence: Evidence) -> dict[str, Inferred]:
        """What the client had when the log began."""
        lasting = evidence.infer(self.published)
        self.lasts_longer(client, lasting)
        return {i.name: i for i in [*evidence.found, *lasting]}

    def lasts_longer(self, client: str, found: list[Inferred]) -> None:
        """What is found again, since copies came after the UNSUBSCRIBE with which it seemed
        to end, didn't end there."""
        for inferred in found:
            self.ended_at.pop((client, inferred.name), None)

    def publisher(self, topic: str) -> tuple[str, str | None]:
        """Who may have published a retained message: one that publishes its topic later, or the
        topic whose levels begin like it most; rather one whose user name is known."""
        found, nameless = self.published.publishers, self.result.nameless
        topics = list(islice(self.published.tree.alike(topic), ALIKE))
        publishers = [(c, user) for near in topics for c, user in found[near].items()]
        named = [(c, user) for c, user in publishers if c not in nameless]
        client, user = next(iter(named + publishers), (next(iter(self.connected), "before"), None))
        return client, self.users.get(client, user)


def subscription(client: str, found: Inferred) -> Command:
    command: Command = {"do": "subscribe", "client": client, "filter": found.name}
    if found.qos:
        command["qos"] = found.qos
    return command | {"rap": True} if found.rap else command


def beginning(streams: Iterable[BinaryIO], form: str | None, begin: State) -> Beginning:
    observer = Observer(form, begin)
    for _ in placed_commands(observer, streams):
        pass
    return observer.beginning()
