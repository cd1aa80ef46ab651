"""Copies that a broker holds back until their client has acknowledged others.

mosquitto sends a client only so many messages of QoS 1 and 2 that it hasn't acknowledged
(max_inflight_messages, or the client's Receive Maximum); the next ones go out right behind a PUBACK
or PUBCOMP, in their order.
"""
from collections import Counter
from collections.abc import Iterable, Iterator
from dataclasses import dataclass

from ..script.output import Key
from .report_line import Line
from .steps import Step

LIMIT = 20  # mosquitto's max_inflight_messages, unless the log shows another number


class Flight:
    """The packet identifiers that each client hasn't acknowledged yet."""

    def __init__(self) -> None:
        self.open: dict[str, set[int]] = {}
        self.limits: dict[str, int] = {}  # how many there are behind a release
        self.peaks: dict[str, int] = {}  # since the last command
        self.before: dict[str, set[int]] = {}  # what the connection before this one left open

    def begin(self, client: str, resumed: bool) -> None:
        """A new connection: what is still open is sent again."""
        before = self.open.pop(client, set()) | self.before.pop(client, set())
        if resumed and before:
            self.before[client] = before
        self.limits.pop(client, None)

    def again(self, client: str, packet: int) -> bool:
        """Whether the copy was sent on the connection before this one: where that broke off it may
        come again without DUP."""
        before = self.before.get(client)
        if before is None:
            return False
        sent_before = packet in before
        before.discard(packet)
        if not before:
            del self.before[client]
        return sent_before

    def add(self, client: str, packet: int, released: bool = False) -> None:
        found = self.open.get(client)
        if found is None:
            found = self.open[client] = set()
        found.add(packet)
        self.peaks[client] = max(len(found), self.peaks.get(client, 0))
        if released:
            self.limits[client] = len(found)

    def limit(self, client: str) -> int:
        return self.limits.get(client, LIMIT)

    def acknowledge(self, client: str, packet: int) -> bool:
        """Whether there is room now, so that nothing is held back unless it goes out at once."""
        found = self.open.get(client)
        if found is None:
            return True
        self.peaks[client] = max(len(found), self.peaks.get(client, 0))
        found.discard(packet)
        if not found:
            del self.open[client]
        return len(found) < self.limit(client)

    def flying(self) -> dict[str, bool]:
        """Who has had messages in flight since the last command, and whether as many as may be."""
        if not self.open and not self.peaks:
            return {}
        counts, self.peaks, limits = self.peaks, {}, self.limits
        for client, found in self.open.items():
            counts.setdefault(client, len(found))
        return {client: count >= limits.get(client, LIMIT) for client, count in counts.items()}


@dataclass(slots=True)
class Owed:
    """Copies of one topic that mqroute sent a client at one step, and the broker may still send."""
    step: Step  # what of it is about these
    key: Key
    line: Line  # of the report
    room: Counter[tuple[int, int]]  # by size and RETAIN flag, how many more may come
    full: bool  # as many were in flight as may be
    kind: str  # of the line, if it is late
    again: bool  # the client has another user name now
    since: int = 0  # of the late ones, how many came under that name
    late: int = 0  # how many came


class Backlog:
    """What is owed to each client, in the order of the steps."""

    def __init__(self) -> None:
        self.owed: dict[str, list[Owed]] = {}

    def add(self, owed: Owed) -> None:
        self.owed.setdefault(owed.key[0], []).append(owed)

    def take(self, key: Key, size: int, retained: int) -> Owed | None:
        """What a late copy is of: the oldest with room for its size and RETAIN flag. One with
        RETAIN may also be of a live message, as it was published."""
        here = [owed for owed in self.owed.get(key[0], ()) if owed.key == key]
        for retain in range(retained, -1, -1):
            for owed in here:
                if owed.room[size, retain] > 0:
                    owed.room[size, retain] -= 1
                    owed.late += 1
                    owed.since += owed.again
                    return owed
        return None

    def passed(self, owed: Owed) -> list[Owed]:
        """What is older than that, and so complete: what waits goes out in its order."""
        all_of = self.owed[owed.key[0]]
        older = [each for each in all_of if each.step.place < owed.step.place]
        if older:
            self.owed[owed.key[0]] = [each for each in all_of if each.step.place >= owed.step.place]
        return older

    def other_user(self, client: str) -> None:
        """The client comes back with another user name: the broker tests what waits again."""
        for owed in self.owed.get(client, ()):
            owed.again, owed.since = True, 0

    def settle(self, clients: Iterable[str] | None = None) -> Iterator[Owed]:
        """What nothing more comes of: all that is owed to these clients, or to all."""
        for client in list(self.owed) if clients is None else clients:
            yield from self.owed.pop(client, ())
