"""Right brokers that are slow: nothing differs, and what they haven't removed is no difference."""
import json
import subprocess
import sys
import tempfile
import unittest
from pathlib import Path

from mosquitto import PAHO, wants_paho
from worked import HERE, PROGRAM, wants_program
from mqroute_tools.live.broker_diff import Copy, are_near
from mqroute_tools.live.lateness import Lateness

A = {"do": "connect", "client": "a", "session_expiry": 1000}
P = {"do": "connect", "client": "p"}
SUBSCRIBE = {"do": "subscribe", "client": "a", "filter": "x", "qos": 1}
KEPT = {"do": "publish", "client": "p", "topic": "x", "payload": "m", "qos": 1, "expiry": 100}
WAITS = [A, P, SUBSCRIBE, {"do": "disconnect", "client": "a"}, KEPT, A | {"clean": False}]
RETAINED = [P, A, *(KEPT | {"topic": topic, "retain": True} for topic in "yz"),
            SUBSCRIBE | {"filter": "#"}]


class Late(unittest.TestCase):
    def test_near(self):
        for other, late, wanted in ((98, 0, True), (97, 0, False), (91, 7, True), (90, 7, False),
                                    (102, 7, True), (103, 7, False)):
            self.assertEqual(are_near(100, other, late), wanted, (other, late))

    def test_what_may_have_expired(self):
        lateness, copy = Lateness(), Copy("a", "x", 1, False, "m", [], 5)
        lateness.publish(KEPT)
        lateness.began -= 10
        self.assertEqual(lateness.fitting([copy], []), [])
        self.assertEqual(lateness.fitting([copy], [copy]), [copy._replace(late=11)])
        for stays in (copy._replace(expiry=100), copy._replace(expiry=None)):
            self.assertEqual([one.expiry for one in lateness.fitting([stays], [])], [stays.expiry])
        lateness.passed = 10
        self.assertEqual(lateness.fitting([copy], []), [copy._replace(late=1)])


@wants_paho
@wants_program
class OnASlowBroker(unittest.TestCase):
    def setUp(self) -> None:
        folder = tempfile.TemporaryDirectory()
        self.addCleanup(folder.cleanup)
        self.folder = Path(folder.name)

    def start(self, mode: str) -> str:
        broker = subprocess.Popen([sys.executable, Path(__file__).parent / "right_broker.py", mode],
                                  stdout=subprocess.PIPE)
        self.addCleanup(broker.stdout.close)
        self.addCleanup(broker.wait)
        self.addCleanup(broker.kill)
        return broker.stdout.readline().decode().strip()

    def write(self, name: str, script: list) -> None:
        text = "".join(json.dumps(command) + "\n" for command in script)
        (self.folder / f"{name}.jsonl").write_text(text)
        done = subprocess.run([PROGRAM], input=text, capture_output=True, text=True)
        (self.folder / f"{name}.out").write_text(done.stdout)

    def run_tool(self, tool: str, port: str, *words: str) -> tuple[int, str, str]:
        done = subprocess.run([PAHO, HERE / f"{tool}.py", "--port", port, *words], cwd=self.folder,
                              capture_output=True, text=True, timeout=120)
        return done.returncode, done.stdout, done.stderr

    def test_a_second_late(self):
        self.write("one", WAITS)
        self.assertEqual(self.run_tool("replay", self.start("delay"), "one.jsonl", "one.out"),
                         (0, "", ""))

    def test_without_what_is_late_it_would_differ(self):
        """A broker that takes ten seconds too many off."""
        self.write("one", WAITS)
        out = (self.folder / "one.out").read_text().replace('"expiry":100', '"expiry":110')
        (self.folder / "one.out").write_text(out)
        status, said, _ = self.run_tool("replay", self.start("quick"), "one.jsonl", "one.out")
        self.assertEqual((status, said.count("expiry 110")), (1, 1), said)

    def test_slow_to_remove(self):
        """What an earlier case has retained comes to a later one, and is told apart."""
        for name in ("one", "two", "xthree"):
            self.write(name, RETAINED)
        status, said, notes = self.run_tool(
            "replay", self.start("cleaner"), "--patience", "2", "--all", ".")
        self.assertEqual(status, 0, said)
        self.assertIn("copies of what an earlier script left on the broker are left out", notes)
        self.assertRegex(notes, r"what \d scripts left on the broker is still there")

    def test_without_waiting(self):
        script = [A, P, SUBSCRIBE, {"do": "disconnect", "client": "a"}, KEPT,
                  {"do": "advance", "seconds": 86_000}, A | {"clean": False},
                  KEPT | {"topic": "z", "retain": True}, {"do": "advance", "seconds": 50},
                  SUBSCRIBE | {"filter": "z"}]
        self.write("day", script)
        port = self.start("quick")
        self.assertEqual(self.run_tool("replay", port, "--no-wait", "day.jsonl", "day.out"),
                         (0, "", "replay: 2 pauses left out, by --no-wait\n"))
        self.assertEqual(self.run_tool("replay", port, "--no-wait", "--all", ".")[0], 2)


if __name__ == "__main__":
    unittest.main()
