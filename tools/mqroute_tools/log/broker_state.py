"""What a broker knows at one moment, by the commands of a script: clients, sessions,
subscriptions, retained messages."""
from collections.abc import Iterator
from dataclasses import dataclass, field

from ..script.commands import connect_command
from ..script.output import Command
from ..script.sessions import FOREVER

UNSHOWN = FOREVER - 1  # of a session of MQTT 5 of which the log doesn't show whether it is kept
WITHOUT_RETAINED = 2  # Retain Handling: nothing is sent at the subscribe


def publish(client: str, topic: str, size: int, qos: int, retain: bool) -> Command:
    command: Command = {"do": "publish", "client": client, "topic": topic}
    if size:
        command["payload"] = f"{size} bytes"
    if qos:
        command["qos"] = qos
    if retain:
        command["retain"] = True
    return command


@dataclass
class Client:
    user: str | None = None
    expiry: int = 0
    connected: bool = True
    ends: int | None = None  # when the session of a client that is away is over
    subscriptions: dict[str, Command] = field(default_factory=dict)  # by filter
    older: bool = False  # than the log: nothing of it happened in this one


class State:
    def __init__(self) -> None:
        self.now = 0
        self.clients: dict[str, Client] = {}
        # by topic: the publisher's user name, and the publish
        self.retained: dict[str, tuple[str | None, Command]] = {}

    def follow(self, command: Command, routed: bool | None = True) -> None:
        """One command of a script; `routed` is whether the broker routed the publish."""
        do, name = command["do"], command.get("client", "")
        client = self.clients.get(name)
        if do == "advance":
            self.now += command["seconds"]
        elif do == "connect":
            self.connect(command, client)
        elif client is None:
            return
        elif do == "disconnect":
            client.connected = False
            client.ends = None if client.expiry >= UNSHOWN else self.now + client.expiry
            if not client.expiry or (client.expiry == UNSHOWN and not client.subscriptions):
                del self.clients[name]
        elif do == "subscribe":
            client.subscriptions[command["filter"]] = command
        elif do == "unsubscribe":
            client.subscriptions.pop(command["filter"], None)
        elif do == "publish" and command.get("retain") and routed is not False:
            self.retained.pop(command["topic"], None)
            if command.get("payload"):
                self.retained[command["topic"]] = (client.user, command)

    def connect(self, command: Command, old: Client | None) -> None:
        fresh = Client(command.get("user"), command.get("session_expiry", 0))
        if old and not command.get("clean", True) and self.lasts(old):
            fresh.subscriptions = old.subscriptions
        self.clients[command["client"]] = fresh

    def lasts(self, client: Client) -> bool:
        """Whether the session is there for a new connection."""
        if client.connected:
            return client.expiry > 0
        return client.ends is None or self.now < client.ends

    def commands(self) -> Iterator[Command]:
        """A script after which the state is this one: the retained messages first, since
        nobody is to be sent them."""
        publishers: dict[tuple[str, str | None], list[Command]] = {}
        for user, command in self.retained.values():
            publishers.setdefault((command["client"], user), []).append(command)
        for (name, user), publishes in publishers.items():
            yield connect_command(name, user)
            yield from publishes
            yield {"do": "disconnect", "client": name}
        for name, client in self.clients.items():
            if client.connected or self.lasts(client):
                yield from self.client_commands(name, client)

    def at_end(self) -> Iterator[Command]:
        """What the next log begins with. Sessions of which two logs don't show whether they are
        kept are given up; of a client that is connected the next CONNACK will show it."""
        for name, client in list(self.clients.items()):
            if client.expiry == UNSHOWN and client.connected:
                client.expiry = 0
            elif client.expiry == UNSHOWN and client.older:
                del self.clients[name]
        return self.commands()

    def client_commands(self, name: str, client: Client) -> Iterator[Command]:
        left = client.expiry if client.connected or client.ends is None else client.ends - self.now
        yield connect_command(name, client.user) | ({"session_expiry": left} if left else {})
        for command in client.subscriptions.values():
            yield (command if command["filter"].startswith("$share/")
                   else command | {"handling": WITHOUT_RETAINED})
        if not client.connected:
            yield {"do": "disconnect", "client": name}
