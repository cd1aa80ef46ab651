"""replay with more clients than are asked after each line, and than select() takes."""
import collections
import contextlib
import resource
import socket
import unittest

from mosquitto import wants_paho
from test_odd_brokers import CONNECT, UNSUBSCRIBE, OddBroker, acknowledged
from test_replay import OnABroker
from mqroute_tools.live.receivers import Receivers

PUBLISH = 3
MANY = 1_100  # clients
STRAY = b"\x30\x05\x00\x01x\x00p"  # of the topic x, with the payload p
ASKED = 3  # times at least


def connect(client: str) -> dict:
    return {"do": "connect", "client": client}


def subscribe(client: str, name: str) -> dict:
    return {"do": "subscribe", "client": client, "filter": name}


def publish(client: str, topic: str) -> dict:
    return {"do": "publish", "client": client, "topic": topic, "payload": "p", "qos": 1}


class WhoMayBeSent(unittest.TestCase):
    def following(self, *commands: dict) -> Receivers:
        found = Receivers()
        for command in commands:
            found.follow(command)
        return found

    def test_filters(self):
        """As they match, and where a `$` keeps them apart."""
        names = ["a/b", "a/+", "+/b", "a/#", "a/b/#", "#", "$share/g/+/+", "a", "a/b/c", "a/c", "+"]
        found = self.following(*(subscribe(name, name) for name in names))
        self.assertEqual(found.of(publish("p", "a/b")), {"p", *names[:7]})
        self.assertEqual(found.of_topic("$x"), {"#", "+"})
        self.assertEqual(found.of_topic("a/" * 60_000), {"a/#", "#"})

    def test_what_it_had_once(self):
        found = self.following(subscribe("a", "x"), {"do": "unsubscribe", "client": "a",
                                                     "filter": "x"})
        self.assertEqual(found.of_topic("x"), {"a"})

    def test_groups(self):
        """A member that leaves leaves its messages to the others."""
        group = "$share/g/x"
        found = self.following(subscribe("a", group), subscribe("b", group), subscribe("c", "x"))
        for do in ("connect", "disconnect", "unsubscribe"):
            self.assertEqual(found.of({"do": do, "client": "a"}), {"a", "b"})
            self.assertEqual(found.of({"do": do, "client": "c"}), {"c"})

    def test_a_session_before_the_script(self):
        found = Receivers()
        found.connected("a", present=True)
        found.connected("b", present=False)
        found.connected("b", present=True)
        self.assertEqual(found.of(publish("b", "x")), {"a", "b"})

    def test_all(self):
        for do in ("advance", "acl", "stat"):
            self.assertIsNone(Receivers().of({"do": do}))


class Careless(OddBroker):
    """Sends what is published to the sixth client alone, and counts what each asks."""

    def __init__(self) -> None:
        self.connections: list[socket.socket] = []
        self.asked: collections.Counter[int] = collections.Counter()
        super().__init__(acknowledged)

    def serve(self, connection: socket.socket) -> None:
        number = len(self.connections)
        self.connections.append(connection)
        with (contextlib.suppress(ConnectionError), connection,
              connection.makefile("rb") as stream):
            while head := stream.read(2):
                self.take(number, head[0] >> 4, stream.read(head[1]))

    def take(self, number: int, kind: int, body: bytes) -> None:
        said = acknowledged(kind, body[:2])
        if kind == CONNECT:
            self.asked.clear()
        self.asked[number] += kind == UNSUBSCRIBE
        if kind == PUBLISH:
            self.asked.clear()
            self.connections[5].sendall(STRAY)
            said = b"\x40\x02" + body[3:5]  # behind a topic of one byte
        self.connections[number].sendall(said)


@wants_paho
class Runs(OnABroker):
    def script_of(self, clients: int) -> list[dict]:
        return [connect(f"c{n:04}") for n in range(clients)]

    def test_who_is_asked(self):
        """Of twenty clients the one that publishes, and the one that something comes to though it
        shouldn't: that is shown at the line."""
        broker = Careless()
        self.addCleanup(broker.listening.close)
        self.port = broker.port
        script = [*self.script_of(20), publish("c0000", "x")]
        status, out, _ = self.run_script(script, self.done(*[0] * 20, 16))
        self.assertEqual((status, out.splitlines()[1:]),
                         (1, ["   c0005 x", "      mqroute: nothing",
                              '      broker:  qos 0, retain false, payload "p"']))
        self.assertEqual({number for number, count in broker.asked.items() if count}, {0, 5})
        self.assertGreaterEqual(min(broker.asked[0], broker.asked[5]), ASKED)

    def test_over_a_thousand(self):
        """More than select() takes, and than the limit of open files lets a process have at
        first."""
        before = resource.getrlimit(resource.RLIMIT_NOFILE)
        if before[1] < MANY + 100:
            self.skipTest("the system has a lower limit")
        self.start()
        self.addCleanup(resource.setrlimit, resource.RLIMIT_NOFILE, before)
        resource.setrlimit(resource.RLIMIT_NOFILE, (256, before[1]))
        names = [command["client"] for command in self.script_of(MANY)]
        script = [*self.script_of(MANY), subscribe(names[7], "x"), subscribe(names[-1], "#"),
                  publish(names[0], "x")]
        copies = [{"client": name, "line": MANY + 3, "payload": "p", "qos": 0, "retain": False,
                   "topic": "x"} for name in (names[7], names[-1])]
        *lines, last = self.done(*[0] * (MANY + 3))
        self.assertEqual(self.run_script(script, [*lines, *copies, last]), (0, "", ""))


if __name__ == "__main__":
    unittest.main()
