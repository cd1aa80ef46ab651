"""What a script has done up to a line, as far as causes need it: users, who is away, what is
retained, what was published.

Sessions, subscriptions and the clock are the script's alone, and so the same in both runs. What may
differ are the rights, what is retained, what waits for clients that are away, and whose turn it is
in a group.
"""
from array import array
from typing import NamedTuple

from ..script.output import Block, Command
from .causes import Cause, Found

# so many rights are remembered; without one a cause is less often known, and never wrong
RIGHTS = 200_000


class Stored(NamedTuple):
    line: int
    client: str
    deadline: int | None


class Apart(NamedTuple):
    """What each run retains of a topic, and the last publish that one run alone accepted."""
    runs: tuple[Stored | None, Stored | None]
    cause: Cause | None = None
    line: int = 0


class Left(NamedTuple):
    """How it stood when a client went away."""
    line: int
    lists: int
    expiring: int


class Entry(NamedTuple):
    """A publish of QoS 1 or 2. `cause` is why one run refused it, if one did."""
    line: int
    payload: int
    deadline: int  # -1: none
    cause: Cause | None

    def accepted(self, run: int) -> bool:
        return self.cause is None or self.cause.newly == (run == 0)


class PublishLog:
    """The publishes of QoS 1 and 2 since somebody is away, each with the one
    before it of the same topic."""

    def __init__(self) -> None:
        self.causes: list[Cause | None] = [None]
        self.numbers: dict[Cause | None, int] = {None: 0}
        self.clear()

    def clear(self) -> None:
        self.last: dict[str, int] = {}
        self.lines, self.earlier, self.why = array("I", [0]), array("I", [0]), array("I", [0])
        self.payloads, self.deadlines = array("q", [0]), array("q", [0])

    def add(self, topic: str, entry: Entry) -> None:
        if entry.cause not in self.numbers:
            self.numbers[entry.cause] = len(self.causes)
            self.causes.append(entry.cause)
        self.earlier.append(self.last.get(topic, 0))
        self.last[topic] = len(self.lines)
        self.lines.append(entry.line)
        self.payloads.append(entry.payload)
        self.deadlines.append(entry.deadline)
        self.why.append(self.numbers[entry.cause])

    def since(self, topic: str, line: int) -> list[Entry]:
        """The publishes of a topic after a line, in order."""
        found, place = [], self.last.get(topic, 0)
        while place and self.lines[place] > line:
            found.append(Entry(self.lines[place], self.payloads[place], self.deadlines[place],
                               self.causes[self.why[place]]))
            place = self.earlier[place]
        return found[::-1]


class Rights:
    """Who may read what in each run, as far as copies have shown it since the
    last access list was set."""

    def __init__(self) -> None:
        self.of: dict[str, dict[str, tuple[bool, bool]]] = {}
        self.count = 0

    def learn(self, client: str, topic: str, both: tuple[bool, bool]) -> None:
        known = self.of.setdefault(client, {})
        if topic not in known and self.count < RIGHTS:
            known[topic] = both
            self.count += 1

    def may_read(self, client: str, topic: str, run: int) -> bool | None:
        both = self.of.get(client, {}).get(topic)
        return None if both is None else both[run]

    def forget(self, client: str) -> None:
        self.count -= len(self.of.pop(client, {}))

    def clear(self) -> None:
        self.of, self.count = {}, 0


class History:
    def __init__(self) -> None:
        self.users: dict[str, str | None] = {}
        self.kept: set[str] = set()  # clients whose session outlives their connection
        self.left: dict[str, Left] = {}
        self.log, self.rights = PublishLog(), Rights()
        self.same: dict[str, Stored] = {}  # what both runs retain
        self.differ: dict[str, Apart] = {}
        self.now, self.lists, self.expiring = 0, 0, 0
        self.sessions: dict[str, Found] = {}  # clients one of whose commands one run alone refused
        self.clocks_differ = False
        self.renamed = False  # the client that connects has another user name than before,
        self.former: str | None = None  # which was this one

    def begin(self, command: Command, before: Block, after: Block) -> None:
        """The user name, which counts at the connect itself."""
        if command.get("do") == "connect" and not (before.refused and after.refused):
            client, user = str(command.get("client")), command.get("user")
            self.former = self.users.get(client)
            self.renamed = self.former != user
            self.users[client] = user

    def end(self, number: int, command: Command, before: Block, after: Block) -> None:
        """What the line leaves behind."""
        do, client = command.get("do"), str(command.get("client"))
        if before.refused and after.refused:
            return
        cause = self.refusal(command, before, after)
        if do == "publish":
            self.published(number, command, cause)
        elif cause:
            self.sessions.setdefault(client, Found("", cause, number))
            self.clocks_differ |= do == "advance"
        elif do == "connect":
            self.connected(client, command)
        elif do == "disconnect" and client in self.kept:
            self.left[client] = Left(number, self.lists, self.expiring)
        elif do == "advance":
            self.now += command.get("seconds", 0)
        if do == "acl":
            self.lists += 1
            self.rights.clear()

    def refusal(self, command: Command, before: Block, after: Block) -> Cause | None:
        """Why one run alone accepted the line."""
        name = after.refused or before.refused
        if not name:
            return None
        if command.get("do") == "publish":
            return Cause(
                "publisher", name, bool(after.refused), self.users.get(str(command.get("client"))))
        return Cause("session", name, bool(after.refused), did=str(command.get("do")))

    def connected(self, client: str, command: Command) -> None:
        (self.kept.add if command.get("session_expiry", 0) else self.kept.discard)(client)
        if self.renamed:
            self.rights.forget(client)
        if self.left.pop(client, None) and not self.left:
            self.log.clear()

    def published(self, number: int, command: Command, cause: Cause | None) -> None:
        expiry, payload = command.get("expiry"), command.get("payload", "")
        topic = str(command.get("topic"))
        deadline = None if expiry is None else self.now + expiry
        if self.left and command.get("qos", 0) > 0:
            ends = -1 if deadline is None else deadline
            self.log.add(topic, Entry(number, hash(payload), ends, cause))
            self.expiring += deadline is not None
        if command.get("retain"):
            stored = Stored(number, str(command.get("client")), deadline)
            self.retain(topic, stored if payload and expiry != 0 else None, cause, number)

    def retain(self, topic: str, stored: Stored | None, cause: Cause | None, number: int) -> None:
        runs = self.retained(topic).runs
        if cause:
            stores = (stored, runs[1]) if cause.newly else (runs[0], stored)
        else:
            stores = (stored, stored)
        self.differ.pop(topic, None)
        self.same.pop(topic, None)
        if stores[0] != stores[1]:
            self.differ[topic] = Apart(stores, cause, number)
        elif stores[0]:
            self.same[topic] = stores[0]

    def retained(self, topic: str) -> Apart:
        same = self.same.get(topic)
        return self.differ.get(topic) or Apart((same, same))

    def over(self, deadline: int | None) -> bool:
        return deadline is not None and 0 <= deadline <= self.now
