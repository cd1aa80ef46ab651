"""What compare-log holds: the same of a short log and of a long one, whatever differs, but for what
docs/reference/compare-log.md names. And the lines that it puts away come in their order."""
import argparse
import contextlib
import io
import json
import os
import sys
import tempfile
import tracemalloc
import unittest
import unittest.mock
from collections.abc import Callable
from pathlib import Path

from worked import TOP
from mqroute_tools.common import second_process
from mqroute_tools.log import compare_log, mosquitto_log, report, report_line
from mqroute_tools.log.conversion import placed_commands
from mqroute_tools.log.log_files import Logs
from mqroute_tools.log.script_writer import Writer, read_logs
from mqroute_tools.plain.reader import Reader

RECORDED = TOP / "brokers/recorded"
WORDS = {"sessions": ["--session-expiry", "3600"]}  # as record_clients.py asks for
FEW, MANY, HELD = 1_200, 2_700, 100
START = "mosquitto version 2.0.11 starting\n"
Copies = Callable[[int, dict], list[dict]]  # of mqroute's, for a publish with its line


def coming(client: str, protocol: int = 5, clean: int = 1, present: int = 0) -> str:
    return (f"New client connected from 1.2.3.4:5 as {client} (p{protocol}, c{clean}, k60).\n"
            f"No will message specified.\nSending CONNACK to {client} ({present}, 0)\n")


def subscribing(client: str) -> str:
    return (f"Received SUBSCRIBE from {client}\n\tx (QoS 1)\n{client} 1 x\n"
            f"Sending SUBACK to {client}\n")


def publish(topic: str = "x", qos: int = 0, packet: int = 0, done: str = "Received") -> str:
    return f"{done} PUBLISH from a (d0, q{qos}, r0, m{packet}, '{topic}', ... (2 bytes))\n"


def sent(packet: int) -> str:
    return f"Sending PUBLISH to b (d0, q1, r0, m{packet}, 'x', ... (2 bytes))\n"


def acknowledged(packet: int) -> str:
    return f"Received PUBACK from b (Mid: {packet}, RC:0)\n"


def no_copy(line: int, command: dict) -> list[dict]:
    return []


def copy_for_b(line: int, command: dict) -> list[dict]:
    return [{"client": "b", "line": line, "payload": "2 bytes", "qos": command.get("qos", 0),
             "retain": False, "topic": command["topic"]}]


def answers(line: int, command: dict, copies: Copies) -> list[dict]:
    of_publish = copies(line, command) if command["do"] == "publish" else []
    reason = command.get("qos", 0) if command["do"] == "subscribe" else 0
    return [*of_publish, {"line": line, "reason": reason}]


class Nowhere(io.TextIOBase):
    def write(self, text: str) -> int:
        return len(text)


class Case(unittest.TestCase):
    def setUp(self) -> None:
        folder = tempfile.TemporaryDirectory()
        self.addCleanup(folder.cleanup)
        self.log, self.output = (Path(folder.name, name) for name in ("log", "output"))
        for where, name, value in (  # all in one process, and nothing from the log before
                (second_process, "has_second", lambda: False), (sys, "argv", ["compare_log"]),
                (mosquitto_log, "REMEMBERED", 100), (mosquitto_log, "TOPICS", {}),
                (mosquitto_log, "OF_QOS_0", {}), (mosquitto_log, "LINE_MAX", 1 << 12)):
            patch = unittest.mock.patch.object(where, name, value)
            self.addCleanup(patch.stop)
            patch.start()

    def write(self, log: str, copies: Copies) -> None:
        self.log.write_text(log, encoding="utf-8")
        logs = Logs([str(self.log)])
        options = argparse.Namespace(
            session_expiry=None, time_format=None, no_inference=False, begin=None)

        def work(writer: Writer) -> None:
            with self.output.open("w", encoding="utf-8") as out:
                for line, (_, command) in enumerate(placed_commands(writer, logs.streams()), 1):
                    out.writelines(json.dumps(one, separators=(",", ":")) + "\n"
                                   for one in answers(line, command, copies))
        read_logs(Writer, options, logs, work)

    def compare(self, log: Path, out: io.TextIOBase, *words: str) -> list[str]:
        """What is said beside what is printed."""
        parser = argparse.ArgumentParser()
        compare_log.add_arguments(parser)
        options = parser.parse_args([*words, str(log), str(self.output)])
        said = io.StringIO()
        with contextlib.redirect_stdout(out), contextlib.redirect_stderr(said):
            compare_log.run(options)
        return said.getvalue().splitlines()

    def printed(self, held: int, log: Path, *words: str) -> tuple[list[str], list[str]]:
        """What is printed and said, where memory holds so many lines."""
        out = io.StringIO()
        with unittest.mock.patch.object(report, "HELD", held):
            said = self.compare(log, out, *words)
        return out.getvalue().splitlines(), said


class Memory(Case):
    def peak(self, first: str, each: Callable[[int], str], count: int, copies: Copies) -> int:
        self.write(START + coming("a") + first + "".join(map(each, range(count))), copies)
        with unittest.mock.patch.object(report, "HELD", HELD):
            tracemalloc.start()
            self.compare(self.log, Nowhere())
            peak = tracemalloc.get_traced_memory()[1]
            tracemalloc.stop()
        return peak

    def bytes_each(self, first: str, each: Callable[[int], str], copies: Copies) -> float:
        few, many = (self.peak(first, each, count, copies) for count in (FEW, MANY))
        return (many - few) / (MANY - FEW)

    def test_nothing_of_each(self):
        b = coming("b") + subscribing("b")
        full = "".join(publish(qos=1, packet=n) + sent(n) for n in range(1, 21))
        for what, first, each, copies in (
                ("publish", "", lambda _: publish(), no_copy),
                ("publish of another topic", "", lambda n: publish(f"hall/{n}"), no_copy),
                ("difference", b, lambda _: publish(), copy_for_b),
                ("refusal", b, lambda _: publish(done="Denied"), no_copy),
                ("copy that is held back, and comes", b + full, lambda n: (
                    publish(qos=1, packet=100 + n) + acknowledged(n % 20 + 1) + sent(n % 20 + 1)),
                 copy_for_b)):
            with self.subTest(what):
                self.assertLess(self.bytes_each(first, each, copies), 30)

    def test_little_of_a_client(self):
        """That comes once, or again and again."""
        for what, each, most in (
                ("client", lambda n: coming(f"client-{n:06}") + subscribing(f"client-{n:06}")
                 + f"Client client-{n:06} disconnected.\n", 250),
                ("client of MQTT 3", lambda n: coming(f"client-{n:06}", 2)
                 + subscribing(f"client-{n:06}") + f"Client client-{n:06} disconnected.\n", 250),
                ("session", lambda n: coming(f"client-{n:06}", 2, clean=0)
                 + subscribing(f"client-{n:06}") + f"Client client-{n:06} disconnected.\n", 2_500),
                ("return", lambda n: coming("m", 5, 0, int(n > 0)) + "Client m disconnected.\n",
                 20)):
            with self.subTest(what):
                self.assertLess(self.bytes_each("", each, no_copy), most)

    def test_a_copy_that_waits_beside_many_receivers(self):
        """Of a publish to many clients nothing is kept but the copy that waits."""
        others = [f"d{n}" for n in range(30)]
        to_others = "".join(sent(0).replace("to b", f"to {one}").replace("q1", "q0")
                            for one in others)
        first = "".join(coming(one) + subscribing(one) for one in ("b", *others))

        def copies(line: int, command: dict) -> list[dict]:
            [one] = copy_for_b(line, command)
            return [one, *(one | {"client": other, "qos": 0} for other in others)]

        def each(number: int) -> str:
            own = sent(number + 1) if number < 20 else ""
            return publish(qos=1, packet=number + 1) + own + to_others
        few, many = (self.peak(first, each, count, copies) for count in (50, 150))
        self.assertLess((many - few) / 100, 4_000)


class Files(unittest.TestCase):
    def test_nothing_is_left(self):
        """However the process ends: while it runs no file has a name."""
        with (tempfile.TemporaryDirectory() as folder,
              unittest.mock.patch.object(tempfile, "tempdir", folder),
              unittest.mock.patch.object(report, "HELD", 1)):
            found = report.Report(report_line.Refusal)
            for place in range(5):
                found.add(found.number(), report_line.Refusal("kind", place, ("a", "x")))
            self.assertIsNotNone(found.spill)
            self.assertEqual([one.place for one in found], [0, 1, 2, 3, 4])
            self.assertEqual(os.listdir(folder), [])


class Order(Case):
    def test_recorded(self):
        """As they stand in the recorded differences, whether memory holds all or one."""
        for name in ("plain", "sessions", "mixed"):
            reader = Reader((RECORDED / f"{name}.acl").read_text("utf-8"))
            with (RECORDED / f"{name}.jsonl").open("rb") as script:
                self.output.write_bytes(b"".join(reader.answers(script)))
            listed = (RECORDED / f"{name}.differences").read_text("utf-8").splitlines()
            wanted = [line for line in listed if not line.startswith("#")]
            for held in (1, 10_000):
                with self.subTest(name, held=held):
                    found, said = self.printed(
                        held, RECORDED / f"{name}.log", *WORDS.get(name, []))
                    self.assertEqual(found, wanted)
                    self.assertIn(f"; {len(wanted)} differences", said[0])

    def test_one_that_waits_long(self):
        """Its line comes first, though those behind it are known before."""
        full = "".join(publish(qos=1, packet=n) + sent(n) for n in range(1, 21))
        waiting = "".join(publish(qos=1, packet=n) for n in (21, 22))
        later = "".join(publish(f"y{n}") for n in range(30))
        self.write(START + coming("a") + coming("b") + subscribing("b") + full + waiting + later
                   + "".join(acknowledged(n) + sent(n) for n in (1, 2)), copy_for_b)
        wanted = ["held back by max_inflight_messages 'b' 'x'"] * 2 + [
            f"different 'b' 'y{n}'" for n in range(30)]
        for held in (1, 7, 10_000):
            with self.subTest(held=held):
                shown, said = self.printed(held, self.log)
                parts = [line.split(": ") for line in shown]
                self.assertEqual([f"{kind} {key}" for kind, _, key, _ in parts], wanted)
                self.assertEqual([line.split(": ")[1] for line in said], [
                    "the broker sent 22 copies and refused 0 publishes; 32 differences",
                    "30 different", "2 held back by max_inflight_messages"])


if __name__ == "__main__":
    unittest.main()
