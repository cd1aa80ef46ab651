"""Lines that mqroute refuses, sent by a client that writes its own packets."""
import json
import subprocess
import tempfile
import unittest
import xml.etree.ElementTree
from collections.abc import Callable
from pathlib import Path

from mosquitto import PAHO, wants_paho
from test_odd_brokers import SUBSCRIBE, UNSUBSCRIBE, OddBroker, acknowledged
from worked import HERE, TOP
from mqroute_tools.live import packets
from mqroute_tools.live.cases import read_sections
from mqroute_tools.live.options import BrokerOptions
from mqroute_tools.live.packet_writer import Login, Writer
from mqroute_tools.live.refused_lines import (
    is_refused_by_mqtt, not_sent, sent, shown, why_not_sent)
from mqroute_tools.script.output import Block

A = {"do": "connect", "client": "a"}
NO_FILTER = {"do": "subscribe", "client": "a", "filter": "x+"}
NO_TOPIC = {"do": "publish", "client": "a", "topic": "+", "qos": 1}
CODES = {"TopicName": 8, "TopicFilter": 9, "SharedNoLocal": 10, "NotConnected": 7, "BadField": 4}
PUBLISH, PINGREQ, PINGRESP = 3, 12, b"\xd0\0"


def refusal(line: int, name: str) -> dict:
    return {"code": CODES[name], "line": line, "refused": name}


def block(name: str) -> Block:
    return Block(1, [], None, name)


class Written(unittest.TestCase):
    """Against packets worked out by hand from sections 2 and 3."""

    def test_packets(self):
        write = Writer()
        self.assertEqual(write.connect("a", 60).hex(" "),
                         "10 0e 00 04 4d 51 54 54 05 02 00 3c 00 00 01 61")
        will = {"topic": "w", "payload": "p", "qos": 1, "retain": True, "will_delay": 5}
        self.assertEqual(
            write.connect("a", 60, Login("u", "k"), False, will, session_expiry=7).hex(" "),
            "10 25 00 04 4d 51 54 54 05 ec 00 3c 05 11 00 00 00 07 00 01 61 05 18 00 00 00 05 "
            "00 01 77 00 01 70 00 01 75 00 01 6b")
        self.assertEqual(
            write.subscribe(1, [{"filter": "x", "qos": 1, "rap": True},
                                {"filter": "", "no_local": True, "handling": 2}], id=128).hex(" "),
            "82 0d 00 01 03 0b 80 01 00 01 78 09 00 00 24")
        self.assertEqual(write.unsubscribe(2, ["x", "y"]).hex(" "),
                         "a2 09 00 02 00 00 01 78 00 01 79")
        self.assertEqual(
            write.publish(3, "+", b"p", 2, True, user_properties=[["a", "b"], ["a", ""]]).hex(" "),
            "35 14 00 01 2b 00 03 0d 26 00 01 61 00 01 62 26 00 01 61 00 00 70")
        self.assertEqual(write.disconnect(4, session_expiry=1).hex(" "),
                         "e0 07 04 05 11 00 00 00 01")
        self.assertEqual(write.acknowledge(packets.PUBREL, 5).hex(" "), "62 02 00 05")

    def test_of_3_1_1(self):
        write = Writer(packets.MQTT_3_1_1)
        self.assertEqual(write.connect("a", 60).hex(" "), "10 0d 00 04 4d 51 54 54 04 02 00 3c "
                         "00 01 61")
        self.assertEqual(write.subscribe(1, [{"filter": "x", "rap": True}], id=1).hex(" "),
                         "82 06 00 01 00 01 78 00")


class NotSent(unittest.TestCase):
    OPTIONS = BrokerOptions("127.0.0.1", 1)

    def test_why(self):
        deep = NO_TOPIC | {"topic": "/" * 200}
        for command, name, why in (
                (NO_FILTER, "TopicFilter", ""), (NO_TOPIC, "TopicName", ""),
                (None, "BadField", "refused as BadField"),
                (A, "NotConnected", "refused as NotConnected"),
                (deep, "TopicName", "a topic of over 200 levels, which MQTT allows"),
                (NO_FILTER | {"filter": "x" * 65_536}, "TopicFilter",
                 "a text of over 65,535 bytes"),
                (NO_FILTER | {"filter": "$share/g/x", "no_local": True}, "SharedNoLocal", "")):
            self.assertEqual(why_not_sent(command, block(name), self.OPTIONS), why, command)
        self.assertFalse(is_refused_by_mqtt(deep))
        self.assertFalse(is_refused_by_mqtt(NO_FILTER | {"filter": "x"}))

    def test_count(self):
        lines = [A, deep := NO_TOPIC | {"topic": "/" * 200}, deep, NO_TOPIC]
        blocks = [block("NotConnected"), *map(block, ["TopicName"] * 3)]
        self.assertEqual(shown(not_sent(lines, blocks, self.OPTIONS)),
                         "3 lines not sent: a topic of over 200 levels, which MQTT allows (2), "
                         "refused as NotConnected (1)")


def answering(to: dict[int, Callable[[bytes], bytes | None]]) -> Callable:
    """The broker that knows nothing of messages, but for these kinds of packets."""
    def answer(kind: int, mid: bytes) -> bytes | None:
        if kind in to:
            return to[kind](mid)
        return PINGRESP if kind == PINGREQ else acknowledged(kind, mid)
    return answer


@wants_paho
class OnABroker(unittest.TestCase):
    """What it says to a filter that is none; a packet identifier of 1 is that client's."""
    SCRIPT = [A, NO_FILTER, {"do": "stat"}]
    STAT = {"line": 3, "nodes": 0, "retained": 0, "subscriptions": 0}

    def setUp(self) -> None:
        folder = tempfile.TemporaryDirectory()
        self.addCleanup(folder.cleanup)
        self.folder = Path(folder.name)

    def run_replay(self, answer: Callable, script: list, output: list, *words: str) -> tuple:
        for name, lines in (("script", script), ("output", output)):
            (self.folder / name).write_text("".join(
                json.dumps(line, separators=(",", ":")) + "\n" for line in lines))
        broker = OddBroker(answer)
        self.addCleanup(broker.listening.close)
        done = subprocess.run(
            [PAHO, HERE / "replay.py", "--port", str(broker.port), "--patience", "1", *words,
             "script", "output"], cwd=self.folder, capture_output=True, text=True, timeout=60)
        return done.returncode, done.stdout.splitlines()[1:], done.stderr

    def run_filter(self, answer: Callable) -> tuple:
        return self.run_replay(answer, self.SCRIPT, [
            {"line": 1, "reason": 0}, refusal(2, "TopicFilter"), self.STAT])

    def test_what_refuses_agrees(self):
        for name, said in {"a reason": b"\x90\x04\0\1\0\x8f", "the end": None,
                           "a DISCONNECT": b"\xe0\2\x8f\0"}.items():
            def answer(mid: bytes, said: bytes | None = said) -> bytes | None:
                return said
            with self.subTest(name):
                self.assertEqual(self.run_filter(answering({SUBSCRIBE: answer})), (0, [], ""))

    def test_what_accepts_differs(self):
        self.assertEqual(self.run_filter(answering({})),
                         (1, ["   reason: mqroute TopicFilter, broker 0"], ""))

    def test_no_answer_differs(self):
        status, lines, _ = self.run_filter(answering({SUBSCRIBE: lambda mid: b""}))
        self.assertEqual((status, lines), (1, ["   no SUBACK within 1 seconds; the lines after "
                                               "this one are not run"]))

    def test_what_comes_of_it_differs(self):
        """The filter is refused; and yet a message comes by it, at a later line."""
        seen: list[int] = []

        def ping(mid: bytes) -> bytes:
            seen.append(1)
            late = b"\x30\x04\0\1x\0" if len(seen) == 2 else b""
            return late + PINGRESP
        answer = answering({SUBSCRIBE: lambda mid: b"\x90\x04" + mid + b"\0\x8f", PINGREQ: ping})
        status, lines, _ = self.run_filter(answer)
        self.assertEqual((status, lines), (1, ["   a-refused-2 x", "      mqroute: nothing",
                                               '      broker:  qos 0, retain false, payload ""']))

    def test_a_topic(self):
        script, output = [A, NO_TOPIC], [{"line": 1, "reason": 0}, refusal(2, "TopicName")]
        for said, wanted in ((b"\x40\3\0\1\x90", []), (None, []),
                             (b"\x40\2\0\1", ["   reason: mqroute TopicName, broker 0"])):
            def answer(mid: bytes, said: bytes | None = said) -> bytes | None:
                return said
            status, lines, _ = self.run_replay(answering({PUBLISH: answer}), script, output)
            self.assertEqual((status, lines), (1 if wanted else 0, wanted))

    def test_unsubscribe_may_say_that_there_is_none(self):
        script = [A, {"do": "unsubscribe", "client": "a", "filter": "x+"}]
        output = [{"line": 1, "reason": 0}, refusal(2, "TopicFilter")]
        for reason, status in ((0x11, 0), (0x8f, 0), (0, 1)):
            def answer(mid: bytes, reason: int = reason) -> bytes:
                return b"\xb0\4" + mid + bytes([0, reason if mid == b"\0\1" else 17])
            self.assertEqual(
                self.run_replay(answering({UNSUBSCRIBE: answer}), script, output)[0], status)

    def test_what_is_not_sent_is_named(self):
        script = [A, {"do": "publish", "client": "b", "topic": "x"}, NO_FILTER]
        output = [{"line": 1, "reason": 0}, refusal(2, "NotConnected"), refusal(3, "TopicFilter")]
        answer = answering({SUBSCRIBE: lambda mid: None})
        self.assertEqual(self.run_replay(answer, script, output), (
            0, [], "replay: 1 line not sent: refused as NotConnected (1)\n"))

    def test_output_of_another_script(self):
        status, _, said = self.run_replay(
            answering({}), [A, NO_FILTER | {"filter": "x"}],
            [{"line": 1, "reason": 0}, refusal(2, "TopicFilter")])
        self.assertEqual((status, said), (
            2, "replay: script:2: output is of another script: it answers TopicFilter\n"))

    def test_skipped_in_junit(self):
        folder = self.folder / "cases"
        folder.mkdir()
        lines = [A, {"do": "publish", "client": "b", "topic": "x"}]
        (folder / "one.jsonl").write_text("".join(json.dumps(line) + "\n" for line in lines))
        (folder / "one.out").write_text(
            '{"line":1,"reason":0}\n{"code":7,"line":2,"refused":"NotConnected"}\n')
        broker = OddBroker(answering({}))
        self.addCleanup(broker.listening.close)
        done = subprocess.run(
            [PAHO, HERE / "replay.py", "--port", str(broker.port), "--patience", "1", "--all",
             folder, "--junit", self.folder / "junit"], capture_output=True, text=True, timeout=60)
        self.assertIn("replay: 1 line not sent: refused as NotConnected (1)\n", done.stderr)
        read = xml.etree.ElementTree.parse(self.folder / "junit").getroot()
        self.assertEqual([(case.get("name"), case.find("skipped") is not None)
                          for case in read.iter("testcase")],
                         [("one", False), ("one: lines not sent", True)])


class Corpus(unittest.TestCase):
    def test_each_case_asks_something(self):
        """Something that a broker can get wrong: of a script that is sent, a line of which it is
        asked more than to take a connection."""
        options = BrokerOptions("127.0.0.1", 1, on_acl="true")
        for section in read_sections(TOP / "conformance"):
            for case in (one for one in section.cases if not one.is_of_packets):
                lines = [line for _, line, _ in sent(case.script, case.expected, options)]
                with self.subTest(case.path):
                    self.assertTrue(any(line["do"] not in ("connect", "advance", "acl", "stat")
                                        or not line.get("clean", True) for line in lines))
                    self.assertFalse(not_sent(case.script, case.expected, options))


if __name__ == "__main__":
    unittest.main()
