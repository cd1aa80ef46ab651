"""Each client under the list of its own listener: mqroute has one list, so that has a block for
each class of clients, and the script has the names of the classes for user names.

By mosquitto's rules a client is decided by the `topic` lines of its user name, and then by all
`pattern` lines. So a class is a listener and a user name, and where the listener's list has
`pattern` lines the client too: these become `topic` lines with its names in them.
"""
from collections.abc import Iterable
from typing import Any, NamedTuple

from ..common.exit_status import Fault
from ..common.files import at
from ..common.messages import named
from ..conf.mosquitto_conf import Conf, Listener
from ..log.clients import Arrival
from ..log.inference import Beginning
from ..log.recording import Recorder
from ..plan.filters import levels, meet
from ..script.access_list import AccessList, Line
from ..script.output import Command
from ..script.rules import MOSQUITTO
from .acl_answers import Lists
from .list_rows import BLANKS, MARK, Row

OWN_BRIDGE = -1  # in place of a port: of the broker's own bridges no list is asked
UNKNOWN = 0
EVERYTHING = ("topic readwrite #", "topic readwrite $SYS/#")

Rows = list[Row] | None  # None: there is no list, so everything is allowed


class Key(NamedTuple):
    """A class of clients."""
    port: int
    user: str | None
    client: str | None  # where the listener's list has `pattern` lines


class Classes:
    """Those that the script has, each with the user name under which it stands there."""

    def __init__(self, lists: dict[int, Rows]) -> None:
        self.lists = lists  # by port
        self.labels: dict[Key, str] = {}
        self.keys: dict[str, Key] = {}
        self.hidden: set[str] = set()  # first levels of topics that begin with `$`

    def label(self, port: int, user: str | None, client: str) -> str:
        """The user name of such a client in the script."""
        rows = self.lists.get(port)
        by_client = rows is not None and any(row.is_pattern for row in rows)
        key = Key(port, user or None, client if by_client else None)
        if key not in self.labels:
            label, number = words_of(key), 1
            while label in self.keys:  # as two odd names may look the same
                number += 1
                label = f"{words_of(key)} ({number})"
            self.labels[key], self.keys[label] = label, key
        return self.labels[key]

    def list_of(self, lists: dict[int, Rows]) -> tuple[str, list[Line | None]]:
        """The one list, when each listener has these; and which line of a listener's each of its
        lines is."""
        texts: list[str] = []
        lines: list[Line | None] = []
        for key, label in self.labels.items():
            texts.append(f"user {label}")
            lines.append(None)
            for text, line in self.block(key, lists.get(key.port)):
                texts.append(text)
                lines.append(line)
        return "".join(text + "\n" for text in texts), lines

    def block(self, key: Key, rows: Rows) -> Iterable[tuple[str, Line]]:
        if rows is None:
            hidden = (f"topic readwrite {level}/#" for level in sorted(self.hidden))
            name = "a bridge of the broker's own" if key.port == OWN_BRIDGE else f"port {key.port}"
            everything = Line(name, 0, "no list: everything is allowed")
            return [(text, everything) for text in dict.fromkeys((*EVERYTHING, *hidden))]
        topics = [row for row in rows if not row.is_pattern and row.user == key.user]
        asked = (row for row in rows if row.is_pattern and is_asked(row, key))
        patterns = [(row, filled(row, key)) for row in asked]
        refuse_overruled(topics, patterns)
        return [(f"topic {row.access} {row.filter}", row.shown()) for row in topics] + [
            (f"topic {row.access} {filter_}", row.shown()) for row, filter_ in patterns]


def words_of(key: Key) -> str:
    who = "clients without a user name" if key.user is None else key.user
    client = "" if key.client is None else f" [{key.client}]"
    if key.port == OWN_BRIDGE:
        return f"{who}{client} (a bridge of the broker's own)"
    return f"{who}{client} on port {key.port}".strip(BLANKS)


def is_asked(row: Row, key: Key) -> bool:
    """Whether mosquitto asks the `pattern` line for such a client."""
    texts = (key.client or "") + (key.user or "")
    return key.client is not None and not set("+#") & set(texts) and not (
        "%u" in row.filter and key.user is None)


def filled(row: Row, key: Key) -> str:
    names = {"%c": key.client or "", "%u": key.user or ""}
    found = MARK.sub(lambda mark: names[mark[0]], row.filter)  # a name may look like a mark
    if found != found.strip(BLANKS):
        raise Fault(f"{at(row.file, row.line)}: for the client {key.client!r} it has blanks at an "
                    "end, which no list can say: each client under its own listener's list can't "
                    "be had")
    return found


def refuse_overruled(topics: list[Row], patterns: list[tuple[Row, str]]) -> None:
    """Raises Fault where a `pattern` line that denies meets a `topic` line that grants: among
    `topic` lines it would come first, and mosquitto asks it last."""
    for row, filter_ in patterns:
        for other in topics:
            if row.denies() and not other.denies() and meet(
                    levels(filter_), levels(other.filter)) is not None:
                raise Fault(f"{at(row.file, row.line)}: it denies some of what line {other.line} "
                            "grants, and comes behind that line: each client under its own "
                            "listener's list can't be had")


class Listeners:
    """Which listener each client came by, of a mosquitto.conf."""

    def __init__(self, conf: Conf, target: Listener) -> None:
        self.bridges = conf.bridges
        websockets = [one.port for one in conf.listeners if one.is_websocket()]
        self.websocket = websockets[0] if len(websockets) == 1 else UNKNOWN
        self.otherwise = target.port  # of a client of which the log doesn't show it

    def port(self, client: str, logged: int, websocket: bool) -> int:
        """`logged` is what the log has; of a client of a websocket it has none."""
        if any(one.is_client(client) for one in self.bridges):
            return OWN_BRIDGE
        return logged or (self.websocket if websocket else UNKNOWN)


class Ported(Recorder):
    """Converts, with the names of classes for user names."""

    def __init__(self, classes: Classes, listeners: Listeners, session_expiry: int | None,
                 form: str | None, begins: Beginning) -> None:
        self.classes, self.listeners = classes, listeners
        self.port_of: dict[str, int] = {}  # by which each client came last
        self.own: set[str] = set()  # bridges of the broker's
        self.unknown: set[str] = set()
        super().__init__(session_expiry, form, begins)

    def connect(self, arrival: Arrival, client: str, user: str | None, clean: bool, protocol: int,
                present: bool) -> None:
        self.port_of[client] = OWN_BRIDGE if client in self.own else self.listeners.port(
            client, arrival.port, arrival.websocket)
        super().connect(arrival, client, user, clean, protocol, present)

    def bridge_subscribes(self, client: str, name: str) -> None:
        self.own.add(client)
        super().bridge_subscribes(client, name)

    def emit(self, place: int, command: Command, routed: bool | None = True) -> None:
        if command["do"] == "connect":
            command = self.classed(command)
        elif command["do"] == "publish" and command["topic"].startswith("$"):
            self.classes.hidden.add(command["topic"].partition("/")[0])
        super().emit(place, command, routed)

    def classed(self, command: Command) -> Command:
        client = command["client"]
        port = self.port_of.get(client, UNKNOWN)
        if port == UNKNOWN:
            self.unknown.add(client)
            port = self.listeners.otherwise
        found = type(command)(command)
        found["user"] = self.classes.label(port, command.get("user"), client)
        return found


class ClassList(AccessList):
    """The one list; its lines are shown as those of the listeners' lists."""

    def __init__(self, name: str, text: str, lines: list[Line | None]) -> None:
        super().__init__(name, "mosquitto", text.encode("utf-8"))
        self.lines = lines

    def line(self, found: dict[str, Any] | None) -> Line | None:
        return self.lines[found["line"] - 1] if found else None


class ClassLists(Lists):
    """Both of them, under which the script is tried."""

    def __init__(self, classes: Classes, current: dict[int, Rows], proposed: dict[int, Rows],
                 names: tuple[str, str]) -> None:
        self.current, self.proposed = (
            ClassList(name, *classes.list_of(lists))
            for name, lists in zip(names, (current, proposed)))
        self.rules = MOSQUITTO
        self.plan: list[str] = []
        self.plan_name = ""
        self.names = {one.path: named(one.name) for one in (self.current, self.proposed)}
