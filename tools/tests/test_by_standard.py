"""--standard: a broker that goes by the standard where mqroute has another rule has no difference,
and one that breaks the standard's rule has."""
import json
import subprocess
import sys
import tempfile
import unittest
from pathlib import Path

from mosquitto import PAHO, wants_paho
from worked import HERE, PROGRAM, TOP, wants_program
from mqroute_tools.live.broker_diff import Copy
from mqroute_tools.live.by_standard import ByStandard, PassedOver
from mqroute_tools.script.sessions import Sessions

GROUP = "$share/g/x"
A, B, P = ({"do": "connect", "client": client, "session_expiry": 1000} for client in "abp")
JOIN = {"do": "subscribe", "client": "a", "filter": GROUP, "qos": 1}
LEAVE = {"do": "disconnect", "client": "a"}
PUBLISH = {"do": "publish", "client": "p", "topic": "x", "payload": "m", "qos": 1}
BACK = A | {"clean": False}
ALL_AWAY = [A, P, JOIN, LEAVE, PUBLISH, BACK]
KEPT = Copy("a", "x", 1, False, "m", [], None)
NAMED = "by the standard, where mqroute has a rule of its own: "


AT_ONCE = [TOP / "tools/tests/right_broker.py", "at-once"]


def mutant(name: str) -> list:
    return [TOP / "conformance/broker.py", "0", name]


RIGHT = mutant("")


def after(*commands: dict) -> ByStandard:
    sessions = Sessions()
    for command in commands:
        sessions.follow(command)
    return ByStandard(sessions)


class Owed(unittest.TestCase):
    def test_kept_by_the_member(self):
        rules = after(A, P, JOIN, LEAVE)
        self.assertEqual(rules.published(5, PUBLISH, [], []), ([], []))
        self.assertEqual(rules.connected("a", True, [], [KEPT]), ([], [], []))
        self.assertEqual(rules.connected("a", True, [], [KEPT]), ([], [KEPT], []))  # once

    def test_kept_by_none(self):
        rules = after(A, P, JOIN, LEAVE)
        rules.published(5, PUBLISH, [], [])
        _, _, found = rules.connected("a", True, [], [])
        self.assertEqual([text.strip() for text in found], [
            "$share/g/x, by the standard: the message of line 5",
            "mqroute: kept by a member; x 'm'", "broker:  nothing"])

    def test_kept_by_one_of_two(self):
        joins = JOIN | {"client": "b"}
        for first, second, missing in ((KEPT, None, 0), (None, KEPT._replace(client="b"), 0),
                                       (None, None, 3)):
            rules = after(A, B, P, JOIN, joins, LEAVE, LEAVE | {"client": "b"})
            rules.published(7, PUBLISH, [], [])
            found = rules.connected("a", True, [], [first] if first else [])[2]
            found += rules.connected("b", True, [], [second] if second else [])[2]
            self.assertEqual(len(found), missing)

    def test_not_due(self):
        """QoS 0, an interval, a member whose session has ended."""
        for publish, present in ((PUBLISH | {"qos": 0}, True), (PUBLISH | {"expiry": 5}, True),
                                 (PUBLISH, False)):
            rules = after(A, P, JOIN, LEAVE)
            rules.published(5, publish, [], [])
            self.assertEqual(rules.connected("a", present, [], [])[2], [])

    def test_will_of_a_member(self):
        """Whose session ends with its connection: the group may have lost the message to it."""
        ends = {"do": "connect", "client": "a"}
        rules = after(ends, B, JOIN, JOIN | {"client": "b"}, LEAVE)
        ours = Copy("b", "x", 0, False, "will", [], None, GROUP)
        will = {"do": "publish", "client": "a", "topic": "x", "payload": "will"}
        self.assertEqual(rules.published(5, will, [ours], []), ([], []))
        self.assertEqual(after(B, JOIN | {"client": "b"}, ends).published(5, will, [ours], []),
                         ([ours], []))

    def test_another_copy_stays(self):
        rules = after(A, P, JOIN, LEAVE)
        rules.published(5, PUBLISH, [], [])
        other = KEPT._replace(qos=0)
        self.assertEqual(rules.connected("a", True, [], [other])[1], [other])

    def test_taken_over(self):
        rules = after({"do": "connect", "client": "a"})
        rules.taken_over({"do": "connect", "client": "a", "clean": False}, False)
        with self.assertRaises(PassedOver):
            rules.taken_over({"do": "connect", "client": "a", "clean": False}, True)


@wants_paho
@wants_program
class OnABroker(unittest.TestCase):
    def run_script(self, script: list, broker: list, *words: str) -> tuple[int, str, str]:
        with tempfile.TemporaryDirectory() as folder, subprocess.Popen(
                [sys.executable, *broker], stdout=subprocess.PIPE) as broker:
            port = broker.stdout.readline().decode().strip()
            text = "".join(json.dumps(command) + "\n" for command in script)
            Path(folder, "script").write_text(text)
            done = subprocess.run([PROGRAM], input=text, capture_output=True, text=True)
            Path(folder, "output").write_text(done.stdout)
            found = subprocess.run(
                [PAHO, HERE / "replay.py", "--port", port, "--patience", "2", *words, "script",
                 "output"], cwd=folder, capture_output=True, text=True, timeout=60)
            broker.kill()
            return found.returncode, found.stdout, found.stderr

    def test_a_right_broker(self):
        self.assertEqual(self.run_script(ALL_AWAY, RIGHT)[0], 1)
        self.assertEqual(self.run_script(ALL_AWAY, RIGHT, "--standard"), (
            0, "", f"replay: {NAMED}1 message of groups of which members are away\n"))

    def test_one_that_loses_it(self):
        self.assertEqual(self.run_script(ALL_AWAY, mutant("MQTT-4.5.0-1d"))[0], 0)
        status, said, _ = self.run_script(ALL_AWAY, mutant("MQTT-4.5.0-1d"), "--standard")
        self.assertEqual((status, said.splitlines()[1:]), (1, [
            "   $share/g/x, by the standard: the message of line 5",
            "      mqroute: kept by a member; x 'm'", "      broker:  nothing"]))

    def test_an_interval_of_0(self):
        """To a broker for which it is over at once."""
        script = [A, P, JOIN | {"filter": "x"}, PUBLISH | {"expiry": 0}]
        self.assertEqual(self.run_script(script, AT_ONCE)[0], 1)
        self.assertEqual(self.run_script(script, AT_ONCE, "--standard"), (
            0, "", f"replay: {NAMED}1 message with an interval of 0\n"))

    def test_other_faults_stay(self):
        script = [*ALL_AWAY, JOIN | {"filter": "y", "qos": 0}, PUBLISH | {"topic": "y"}]
        status, said, _ = self.run_script(script, mutant("MQTT-3.8.4-8"), "--standard")
        self.assertEqual((status, said.count("broker:  qos 1")), (1, 1), said)


if __name__ == "__main__":
    unittest.main()
