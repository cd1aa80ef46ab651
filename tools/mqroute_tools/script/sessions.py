"""Which sessions and filters there are, by the commands of a script."""
from collections import defaultdict

from .output import Command
from .topics import matches

FOREVER = 4_294_967_295  # a Session Expiry Interval that doesn't end


class Sessions:
    """Which sessions and filters there are, by the commands that mqroute accepted."""

    def __init__(self) -> None:
        self.now = 0
        # clients that are connected, and their Session Expiry Interval
        self.live: dict[str, int] = {}
        self.away: dict[str, int | None] = {}  # clients with a session, and until when they have it
        # by client and filter, the commands that subscribed
        self.filters: defaultdict[str, dict[str, Command]] = defaultdict(dict)

    def has(self, client: str) -> bool:
        if client in self.live:
            return self.live[client] > 0
        if client not in self.away:
            return False
        ends = self.away[client]
        return ends is None or self.now < ends

    def present(self, command: Command) -> bool:
        """What CONNACK has to say: whether the connect resumes a session."""
        return not command.get("clean", True) and self.has(command["client"])

    def spread(self, client: str, topic: str) -> int:
        """The greatest number of copies of one message: one for each of the
        client's subscriptions (3.3.4)."""
        return max(1, sum(matches(name, topic) for name in self.filters.get(client, ())))

    def members(self, name: str) -> list[tuple[str, Command]]:
        """The connected clients that have this filter, as of a shared subscription, each with the
        command that subscribed."""
        return [(client, self.filters[client][name])
                for client in self.live if name in self.filters[client]]

    def follow(self, command: Command) -> None:
        do, client = command["do"], command.get("client", "")
        if do == "connect":
            if not self.present(command):
                self.filters.pop(client, None)
            self.away.pop(client, None)
            self.live[client] = command.get("session_expiry", 0)
        elif do == "disconnect":
            expiry = self.live.pop(client, 0)
            if expiry:
                self.away[client] = None if expiry == FOREVER else self.now + expiry
        elif do == "subscribe":
            self.filters[client][command["filter"]] = command
        elif do == "unsubscribe":
            self.filters[client].pop(command["filter"], None)
        elif do == "advance":
            self.now += command["seconds"]
