"""The sockets of many connections, and which of them have something to read."""
import contextlib
import resource
import selectors
from typing import Any

from .paho_client import Connection


def allow_many_files() -> None:
    """As many open files as the system lets this process have: each client needs one."""
    _, most = resource.getrlimit(resource.RLIMIT_NOFILE)
    with contextlib.suppress(OSError, ValueError):  # where that is more than the system bears
        resource.setrlimit(resource.RLIMIT_NOFILE, (most, most))


class Sockets:
    """A socket that is closed is gone from here before."""

    def __init__(self) -> None:
        allow_many_files()
        self.selector = selectors.DefaultSelector()
        self.held: list[Connection] = []  # for which TLS holds what their sockets show no more

    def add(self, connection: Connection) -> None:
        client = connection.client
        client.on_socket_close = lambda _c, _u, closed: self.drop(closed)
        if client.socket():
            self.selector.register(client.socket(), selectors.EVENT_READ, connection)

    def remove(self, connection: Connection) -> None:
        self.held = [held for held in self.held if held is not connection]
        if connection.client.socket():
            self.drop(connection.client.socket())

    def drop(self, closed: Any) -> None:
        with contextlib.suppress(KeyError, ValueError):  # it was removed, or ended
            self.selector.unregister(closed)

    def read(self, seconds: float) -> list[Connection]:
        """Reads what has come, or what comes first within so many seconds: of whom."""
        ready = self.selector.select(0 if self.held else seconds)
        found = list(dict.fromkeys([*self.held, *(key.data for key, _ in ready)]))
        for connection in found:
            connection.read()
        self.held = [connection for connection in found if connection.has_more()]
        return found

    def close(self) -> None:
        self.selector.close()
