"""What a broker still has at the end of a script: what is retained, and sessions that are away.

mqroute says it: behind the lines of the script a client asks for all that is retained, and each
client that may have a session comes back.
"""
from collections import Counter
from collections.abc import Callable, Iterable, Iterator
from dataclasses import dataclass, field

from ..common.exit_status import Fault
from ..common.messages import say
from ..script.commands import connect_command
from ..script.oracle import Oracle, OracleFault
from ..script.output import Answer, Block, Command, command_of
from ..script.sessions import Sessions
from .list_lines import lines_of_list
from .regions import fresh
from .script_translation import text_of_command

PROBE = "plan-probe"
SHARED = "$share"  # no subscription can have a topic whose first level this is

Answered = Callable[[bytes], Iterable[Block]]  # by mqroute, of a script


@dataclass(frozen=True)
class Message:
    """One that is retained, with the line of its publish."""
    topic: str
    payload: str
    qos: int
    expiry: int | None  # seconds that are left
    line: int
    client: str
    user: str | None


@dataclass(frozen=True)
class Away:
    """A session whose client left at a line: its subscriptions, and how much waits, by topic."""
    client: str
    user: str | None
    line: int
    filters: list[str]
    waiting: Counter[str]


@dataclass
class DayEnd:
    retained: list[Message] = field(default_factory=list)  # in the order of their lines
    away: list[Away] = field(default_factory=list)


@dataclass
class Follower:
    """What the lines that mqroute accepts come to."""
    sessions: Sessions = field(default_factory=Sessions)
    users: dict[str, str | None] = field(default_factory=dict)
    left: dict[str, int] = field(default_factory=dict)
    published: dict[str, Message] = field(default_factory=dict)  # with RETAIN, by topic the last

    def follow(self, number: int, command: Command) -> None:
        self.sessions.follow(command)
        do, client = command["do"], str(command.get("client"))
        if do == "connect":
            self.users[client] = command.get("user")
        elif do == "disconnect":
            self.left[client] = number
        elif do == "publish" and command.get("retain"):
            topic = command["topic"]
            self.published[topic] = Message(topic, "", 0, None, number, client,
                                            self.users.get(client))


@dataclass
class Names:
    """Of a script: its clients, those that may have a session when they are away, and the first
    levels of the topics that are published with RETAIN."""
    clients: set[str] = field(default_factory=set)
    kept: dict[str, None] = field(default_factory=dict)
    firsts: dict[str, None] = field(default_factory=dict)

    def add(self, command: Command) -> None:
        do, client = command.get("do"), str(command.get("client"))
        self.clients.add(client)
        if do == "connect" and command.get("session_expiry"):
            self.kept[client] = None
        elif do == "publish" and command.get("retain"):
            self.firsts[str(command.get("topic")).split("/")[0]] = None

    def questions(self) -> Iterator[Command]:
        """Without a list everybody may read everything."""
        yield {"do": "acl"}
        probe = fresh(PROBE, self.clients)
        yield connect_command(probe, None)
        for wanted in ("#", *(f"{first}/#" for first in self.firsts
                              if first.startswith("$") and first != SHARED)):
            yield {"do": "subscribe", "client": probe, "filter": wanted, "qos": 2}
        for client in self.kept:
            yield connect_command(client, None) | {"clean": False}


class Asking:
    """A script, and behind it what is asked at its end."""

    def __init__(self, lines: list[bytes]) -> None:
        self.lines, self.names = lines, Names()
        for line in lines:
            self.names.add(command_of(line) or {})
        self.asked = list(self.names.questions())
        self.found, self.end = Follower(), DayEnd()
        self.waiting: dict[str, Counter[str]] = {}

    def is_needed(self) -> bool:
        """Whether anything may be retained, or away."""
        return bool(self.names.kept or self.names.firsts)

    def text(self) -> bytes:
        asked = map(text_of_command, self.asked)
        return b"".join(line + b"\n" for line in (*self.lines, *asked))

    def take(self, block: Block) -> None:
        behind = block.line - len(self.lines)
        if behind > 0:
            self.take_asked(self.asked[behind - 1], block.answers()[:-1])
        elif block.refused is None:
            self.found.follow(block.line, command_of(self.lines[block.line - 1]) or {"do": ""})

    def take_asked(self, command: Command, copies: list[Answer]) -> None:
        if command["do"] == "subscribe":
            self.end.retained += [self.message(copy) for copy in copies]
        elif copies:
            self.waiting[command["client"]] = Counter(copy["topic"] for copy in copies)

    def message(self, copy: Answer) -> Message:
        last = self.found.published[copy["topic"]]
        return Message(last.topic, copy["payload"], copy["qos"], copy.get("expiry"), last.line,
                       last.client, last.user)

    def ended(self) -> DayEnd:
        found = self.found
        self.end.retained.sort(key=lambda message: message.line)
        self.end.away = [
            Away(client, found.users.get(client), found.left.get(client, 0),
                 list(found.sessions.filters[client]), self.waiting.get(client, Counter()))
            for client in found.sessions.away if found.sessions.has(client)]
        return self.end


def day_end(lines: list[bytes], answered: Answered) -> DayEnd:
    asking = Asking(lines)
    if asking.is_needed():
        for block in answered(asking.text()):
            asking.take(block)
    return asking.ended()


def under(acl: str | None, name: str | None) -> Answered:
    """By our own rules, under the access list of this text and name, or none. Raises Fault where it
    has a faulty line."""
    faults = () if acl is None else lines_of_list(acl, name or "")
    for _ in faults:
        pass

    def answered(script: bytes) -> Iterator[Block]:
        try:
            with Oracle(acl, note=say) as oracle:
                yield from oracle.each_block(script)
        except OracleFault as fault:
            raise Fault(str(fault)) from fault
    return answered
