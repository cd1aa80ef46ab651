"""The kinds of differences that only several lines of a log show, in small logs of a mosquitto.

All are of 2.0.11, but `gone` of 2.0.21. `held` and `overlap` have max_inflight_messages 2, and
`websocket` is cut from a longer log.
"""
import io
import json
import tempfile
import unittest
from pathlib import Path

from worked import HERE
from mqroute_tools.log.broker_state import State
from mqroute_tools.log.compare_log import compare
from mqroute_tools.log.conversion import placed_commands
from mqroute_tools.log.inference import beginning
from mqroute_tools.log.log_files import Logs
from mqroute_tools.log.script_writer import Writer
from mqroute_tools.log.step_reader import Watcher


def log(name: str) -> str:
    return (HERE / f"tests/logs/{name}.log").read_text(encoding="utf-8")


def copy(client: str, topic: str, size: int, qos: int = 1) -> dict:
    payload = f"{size} bytes" if size else ""
    return {"client": client, "payload": payload, "qos": qos, "retain": False, "topic": topic}


def answers(*lines: int | tuple[int, list[dict]]) -> str:
    """An output: for each line its reason, or its reason and its copies."""
    text = ""
    for number, line in enumerate(lines, 1):
        reason, copies = (line, []) if isinstance(line, int) else line
        for each in copies:
            whole = json.dumps(each | {"line": number}, sort_keys=True, separators=(",", ":"))
            text += whole + "\n"
        text += f'{{"line":{number},"reason":{reason}}}\n'
    return text


def compared(text: str, output: str) -> list[str]:
    with tempfile.TemporaryDirectory() as folder:
        Path(folder, "log").write_text(text, encoding="utf-8")
        Path(folder, "output").write_text(output, encoding="utf-8")
        watcher = Watcher(None, None, beginning([io.BytesIO(text.encode())], None, State()))
        return [str(line) for line in
                compare(watcher, Logs([f"{folder}/log"]), f"{folder}/output").lines()]


def kinds(text: str, output: str) -> list[str]:
    return [line.partition(": line ")[0] for line in compared(text, output)]


class HeldBack(unittest.TestCase):
    """By max_inflight_messages, of which `held` and `overlap` have 2."""
    X = [[copy("a", f"x/{i}", i)] for i in range(4)]
    HELD = answers(0, 0, 1, 0, (0, X[0]), (0, X[1]), (0, X[2]), (0, X[3]), 16)
    LATE = "held back by max_inflight_messages"

    def held(self, text: str, output: str) -> list[str]:
        return [kind for kind in kinds(text, output) if kind != "the broker's own topics"]

    def test_shown_with_where_they_came(self):
        found = [line for line in compared(log("held"), self.HELD) if line.startswith(self.LATE)]
        wanted = "{}: line {}: 'a' 'x/{}': broker q1 r0 (by line {}); mqroute q1 r0"
        places = (26, 2, 33), (28, 3, 34)
        self.assertEqual(found, [wanted.format(self.LATE, *place) for place in places])

    def test_what_is_missing_is_no_such_copy(self):
        """The next one came: those that wait come in their order."""
        line = "Sending PUBLISH to a (d0, q1, r0, m3, 'x/2', ... (2 bytes))\n"
        text = log("held").replace(line, "")
        self.assertEqual(self.held(text, self.HELD), ["different", self.LATE])

    def test_what_mqroute_lacks_is_no_such_copy(self):
        output = answers(0, 0, 1, 0, (0, self.X[0]), (0, self.X[1]), (0, self.X[2]), 16, 16)
        self.assertEqual(self.held(log("held"), output), [self.LATE, "different"])

    def test_another_qos_is_no_such_copy(self):
        output = self.HELD.replace('"payload":"3 bytes","qos":1', '"payload":"3 bytes","qos":2')
        self.assertEqual(self.held(log("held"), output), [self.LATE, "different"])

    def test_one_for_each_subscription(self):
        first, second = [copy("a", "x", 1, 2)], [copy("a", "x", 2, 2)]
        output = answers(0, 1, 2, 0, (0, first), (0, second), (0, [copy("a", "y", 1, 0)]))
        self.assertEqual(kinds(log("overlap"), output), ["overlapping subscriptions", self.LATE])

    def test_one_that_never_comes(self):
        """The twenty-first, in a session that ends: as many as may be were in flight."""
        output = answers(0, 1, 0, *[(0, [copy("a", "x", 1)])] * 21, 0, 0)
        self.assertEqual(kinds(log("full"), output), [self.LATE])
        fewer = log("full").replace("to a (d0, q1, r0, m9,", "to p (d0, q1, r0, m9,")
        self.assertEqual(set(kinds(fewer, output)), {"different"})


class Others(unittest.TestCase):
    def test_topics_of_the_broker(self):
        found = [line for line in compared(log("held"), HeldBack.HELD) if "$SYS" in line]
        found = [line.partition(": line ")[0] for line in found]
        self.assertEqual(found, ["the broker's own topics"] * len(found))
        self.assertGreater(len(found), 0)
        shown = log("held").replace("$SYS/broker/uptime", "SYS/broker/uptime")
        self.assertEqual(kinds(shown, HeldBack.HELD).count("different"), 2)

    def test_another_user_name_at_the_return(self):
        waits = [copy("a", "secret/1", 2), copy("a", "public/1", 3)]
        text = log("user")
        output = answers(0, 1, 0, 0, 0, 0, (0, waits))
        self.assertEqual(kinds(text, output), ["tested again under another user name"])
        self.assertEqual(kinds(text.replace("u'guest'", "u'ops'"), output), ["different"])

    def test_own_wills_at_a_takeover(self):
        """QoS 0, 1, and 2 by a group. In the script the client connects anew, and gets none."""
        one = (0, 2, 0, 16, 0, 0)
        self.assertEqual(kinds(log("takeover"), answers(*one * 3)), ["own will at a takeover"] * 3)
        sent = "to a1 (d0, q1, r0, m1, 'last/a'"
        other = log("takeover").replace(sent, sent.replace("last/a", "last/b"))
        self.assertEqual(kinds(other, answers(*one * 3))[1], "different")

    def test_own_wills_behind_the_end(self):
        """As 2.0.21 logs them; that of the last client, whose session is kept, mqroute has too."""
        one = (0, 2, 0, 16, 0)
        output = answers(*one * 3, 0, 2, (0, [copy("k", "last/a", 4)]), 0, 0, 0)
        self.assertEqual(kinds(log("gone"), output), ["own will of a client that is gone"] * 3)


def written(text: str, begin: State | None = None) -> tuple[list[dict], Writer]:
    found = Writer(None, None, beginning([io.BytesIO(text.encode())], None, begin or State()))
    found.start_with(follow=True)
    return [command for _, command in placed_commands(found, [io.BytesIO(text.encode())])], found


class Conversion(unittest.TestCase):
    def test_no_clients_of_before_in_a_log_of_the_broker_s_start(self):
        commands, found = written(log("gone"))
        self.assertEqual([note for note in found.notes.counts if "before the log" in note], [])
        self.assertEqual(sum(found.explained), 0)
        did = [c["do"] for c in commands[:5]]
        self.assertEqual(did, ["connect", "subscribe", "connect", "publish", "disconnect"])

    def test_a_websocket_ends_at_its_disconnect(self):
        commands = written(log("websocket"))[0]
        did = [(c["do"], c["client"]) for c in commands[-3:]]
        desk = "desk, (a)"
        self.assertEqual(did, [("disconnect", desk), ("publish", "phone/1"), ("connect", desk)])

    def test_a_will_that_a_websocket_asks_for(self):
        """The broker publishes it when it logs the end."""
        end = "Client desk, (a) disconnected.\n"
        sent = "Sending PUBLISH to phone/1 (d0, q0, r0, m0, 'hall/1/door', ... (7 bytes))\n"
        text = log("websocket").replace(end, end + sent)
        commands = written(text)[0]
        did = [(c["do"], c["client"]) for c in commands[-6:]]
        wanted = "disconnect", "publish", "connect", "publish", "disconnect", "connect"
        clients = ["phone/1" if at == 1 else "desk, (a)" for at in range(len(wanted))]
        self.assertEqual(did, list(zip(wanted, clients)))

    def test_an_end_after_the_return(self):
        """The line of a websocket's end may stand behind its client's next connection."""
        lines = log("websocket").splitlines(True)
        at = lines.index("Client desk, (a) disconnected.\n")
        commands = written("".join(lines[:at] + lines[at + 1:] + [lines[at]]))[0]
        self.assertEqual(commands[-1]["do"], "connect")


class FromLogToLog(unittest.TestCase):
    """`begin`, cut where both clients' subscriptions are known."""

    def halves(self, cut: str) -> tuple[str, str]:
        first, second = log("begin").split(cut)
        return first, cut + second

    def state_of(self, text: str) -> State:
        found = written(text)[1]
        state = State()
        for command in found.state.at_end():
            state.follow(command)
        return state

    def check(self, second: str, state: State, *filters: str) -> list[dict]:
        commands, found = written(second, state)
        self.assertEqual([c["filter"] for c in commands if c["do"] == "subscribe"], list(filters))
        self.assertEqual(found.explained[1:], [0, 0])
        return commands

    def test_a_session_that_goes_on(self):
        """One client is connected at the end of the first log, and one has left. The second log
        shows that both sessions were kept."""
        first, second = self.halves("Received PUBLISH from p (d0, q0, r0, m0, 'f/1/t'")
        commands = self.check(second, self.state_of(first), "f/+/t", "g/#")
        came = [c.get("clean") for c in commands if c["do"] == "connect"]
        self.assertEqual(came[-2:], [False, False])
        begun = [c for c in commands if c["do"] == "connect" and c["client"] != "p"][:2]
        self.assertEqual([c["session_expiry"] for c in begun], [4294967295] * 2)

    def test_sessions_that_the_next_log_does_not_show(self):
        first, second = self.halves("Received PUBLISH from p (d0, q0, r0, m0, 'f/1/t'")
        quiet = second[:second.index("Client stays closed")]
        state = self.state_of(first)
        kept = [(client.connected, client.expiry > 0) for client in state.clients.values()]
        self.assertEqual(kept, [(True, False), (False, True), (True, False)])
        self.assertEqual(list(self.next_state(quiet, state).clients), ["stays", "p"])

    def next_state(self, text: str, begin: State) -> State:
        found = written(text, begin)[1]
        list(found.state.at_end())
        return found.state

    TAKEN = """Client phone/2 already connected, closing old connection.
New client connected from 127.0.0.1:32981 as phone/2 (p5, c1, k60, u'plant man').
No will message specified.
Sending CONNACK to phone/2 (0, 0)
Client phone/2 closed its connection.
"""
    GOES_ON = ("Received SUBSCRIBE from phone/2\n\tcmd/+ (QoS 0)\nphone/2 0 cmd/+\n"
               "Sending SUBACK to phone/2\n")

    def test_the_end_of_a_websocket_of_before(self):
        """It is logged behind the connection that took over, whose client goes on. Where it doesn't
        the end is its own."""
        for after, last in ((self.GOES_ON, "subscribe"), ("", "disconnect")):
            state = State()
            state.follow({"do": "connect", "client": "phone/2"})
            commands, found = written(self.TAKEN + after, state)
            self.assertEqual([c["do"] for c in commands], ["connect", "connect", last])
            self.assertEqual(found.notes.counts, {})

    def test_a_session_that_begins_anew(self):
        first, second = self.halves("Received PUBLISH from p (d0, q0, r0, m0, 'f/1/t'")
        second = second.replace("CONNACK to stays (1", "CONNACK to stays (0")
        second = second.replace("PUBLISH to stays (d0, q1", "PUBLISH to p (d0, q1")
        commands = written(second, self.state_of(first))[0]
        come = [c for c in commands if c["do"] == "connect" and c["client"] == "stays"]
        self.assertEqual([c.get("session_expiry") for c in come], [None, None])


if __name__ == "__main__":
    unittest.main()
