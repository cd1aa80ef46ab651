"""Which clients a broker may send something to, for a command."""
from collections import defaultdict
from collections.abc import Iterator

from ..script.output import Command
from ..script.topics import plain_filter


class Node:
    """The filters that begin with the same levels, and whose they are."""
    __slots__ = ("below", "clients")

    def __init__(self) -> None:
        self.below: dict[str, Node] = {}
        self.clients: set[str] = set()

    def add(self, name: str, client: str) -> None:
        node = self
        for level in name.split("/"):
            node = node.below.setdefault(level, Node())
        node.clients.add(client)

    def matching(self, topic: str) -> Iterator[set[str]]:
        """The clients of each filter that matches, also where a `$` at the front keeps it apart."""
        nodes = [self]
        for level in topic.split("/"):
            yield from (node.below["#"].clients for node in nodes if "#" in node.below)
            nodes = [node.below[name] for node in nodes for name in {level, "+"}
                     if name in node.below]
        for node in nodes:
            yield node.clients
            if "#" in node.below:
                yield node.below["#"].clients


class Receivers:
    """Follows a script. A filter that a client had once counts for good: what a broker sends by it
    later is to be seen.

    Who has left a group, or is away, may leave its messages to the other members.
    """

    def __init__(self) -> None:
        self.filters = Node()
        self.seen: set[str] = set()
        self.unknown: set[str] = set()  # whose filters are of a session before the script
        self.groups: defaultdict[str, set[str]] = defaultdict(set)  # clients, by the whole filter
        self.joined: defaultdict[str, set[str]] = defaultdict(set)  # the same, by client

    def follow(self, command: Command) -> None:
        """A subscribe counts whether or not it is granted."""
        if command["do"] != "subscribe":
            return
        client, name = command["client"], command["filter"]
        self.filters.add(plain_filter(name), client)
        if name.startswith("$share/"):
            self.groups[name].add(client)
            self.joined[client].add(name)

    def connected(self, client: str, present: bool | None) -> None:
        """As the CONNACK says: a session that the script didn't begin may have any filter."""
        if present and client not in self.seen:
            self.unknown.add(client)
        self.seen.add(client)

    def of_topic(self, topic: str) -> set[str]:
        return self.unknown.union(*self.filters.matching(topic))

    def of(self, command: Command) -> set[str] | None:
        """None: all of them."""
        do = command["do"]
        if do == "publish":
            return {command["client"]} | self.of_topic(command["topic"])
        if do in ("connect", "disconnect", "subscribe", "unsubscribe"):
            fellows = (self.groups[name] for name in self.joined[command["client"]])
            return {command["client"]}.union(*fellows)
        return None
