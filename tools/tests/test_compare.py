"""The two comparisons with a broker: of a log, and of what a live one sent."""
import json
import subprocess
import sys
import tempfile
import tracemalloc
import unittest
from pathlib import Path

from worked import HERE
from mqroute_tools.log.broker_state import State
from mqroute_tools.log.compare_log import compare
from mqroute_tools.log.inference import Beginning
from mqroute_tools.log.log_files import Logs
from mqroute_tools.log.step_reader import Watcher

TOOL = HERE / "compare_log.py"
CONNECTS = "".join(f"New client connected from 1.2.3.4:5 as {c} ({p}, c1, k60).\n"
                   f"No will message specified.\nSending CONNACK to {c} (0, 0)\n"
                   for c, p in (("a", "p5"), ("b", "p5"), ("old", "p2")))
PUBLISH = "Received PUBLISH from a (d0, q1, r1, m1, 'x', ... (2 bytes))\n"
SUBSCRIBE = "Received SUBSCRIBE from b\n\t$share/g/x (QoS 1)\nb 1 $share/g/x\nSending SUBACK to b\n"


def sent(client: str, qos: int, retain: int) -> str:
    return f"Sending PUBLISH to {client} (d0, q{qos}, r{retain}, m1, 'x', ... (2 bytes))\n"


class OfALog(unittest.TestCase):
    def kinds(self, log: str, *copies: tuple[str, int, bool, str | None],
              refused: bool = False) -> list[str]:
        """What is printed for a log's last line under CONNECTS; a copy is client,
        QoS, RETAIN and share name."""
        answers = [{"line": n, "reason": 0} for n in (1, 2, 3)]
        answers += [{"client": c, "line": 4, "payload": "", "qos": q, "retain": r, "topic": "x"}
                    | ({"share": s} if s else {}) for c, q, r, s in copies]
        answers.append({"code": 11, "line": 4, "refused": "NotAuthorized"} if refused
                       else {"line": 4, "reason": int(log.startswith(SUBSCRIBE))})
        with tempfile.TemporaryDirectory() as folder:
            Path(folder, "log").write_text(CONNECTS + log, encoding="utf-8")
            Path(folder, "output").write_text(
                "".join(json.dumps(a) + "\n" for a in answers), encoding="utf-8")
            return [line.kind
                    for line in compare(Watcher(None, None, Beginning(State())),
                                        Logs([f"{folder}/log"]), f"{folder}/output").lines()]

    def test_the_same(self):
        self.assertEqual(self.kinds(PUBLISH + sent("b", 1, 0) + sent("a", 0, 0),
                                    ("a", 0, False, None), ("b", 1, False, None)), [])

    def test_kinds(self):
        for kind, log, *copies in (
                ("overlapping subscriptions", PUBLISH + sent("b", 1, 0) + sent("b", 0, 0),
                 ("b", 1, False, None)),
                ("Retain As Published", PUBLISH + sent("b", 1, 1), ("b", 1, False, None)),
                ("QoS of one matching subscription", PUBLISH + sent("old", 0, 0),
                 ("old", 1, False, None)),
                ("retained messages for a group", SUBSCRIBE + sent("b", 1, 1)),
                ("another member's turn", PUBLISH, ("b", 1, False, "g")),
                ("different", PUBLISH + sent("b", 0, 0), ("b", 1, False, None)),
                ("different", PUBLISH + sent("b", 1, 0)),
                ("different", PUBLISH, ("b", 1, False, None)),
                # of one for each subscription some were dropped, as where a queue is full
                ("different", PUBLISH + sent("b", 1, 0), ("b", 1, False, None),
                 ("b", 1, False, None)),
        ):
            self.assertEqual(self.kinds(log, *copies), [kind], log)

    def test_refused(self):
        self.assertEqual(self.kinds(PUBLISH.replace("Received", "Denied"), refused=True), [])
        self.assertEqual(self.kinds(PUBLISH, refused=True), ["refused by mqroute alone"])
        self.assertEqual(
            self.kinds(PUBLISH.replace("Received", "Denied")), ["refused by the broker alone"])

    def test_sent_again(self):
        self.assertEqual(self.kinds(PUBLISH + sent("b", 1, 0) + sent("b", 1, 0).replace("d0", "d1"),
                                    ("b", 1, False, None)), [])

    def test_what_a_group_sent_to_a_member_that_was_away(self):
        """It comes when the member resumes its session."""
        def coming(present: int) -> str:
            return ("New client connected from 1.2.3.4:5 as m (p2, c0, k60).\n"
                    f"No will message specified.\nSending CONNACK to m ({present}, 0)\n")

        def subscribing(name: str) -> str:
            return f"Received SUBSCRIBE from m\n\t{name} (QoS 1)\nm 1 {name}\nSending SUBACK to m\n"
        for name, kind in (("$share/g/+", "another member's turn"), ("$share/g/y", "different"),
                           ("y", "different")):
            away = subscribing(name) + "Client m disconnected.\n"
            log = coming(0) + away + coming(1) + sent("m", 1, 0)
            found = self.compared(
                [log], "".join('{"line":%d,"reason":%d}\n' % (n, n == 2) for n in (1, 2, 3, 4)))
            self.assertEqual((found[0], found[1].split(":")[0]), (1, kind))

    def test_own_will(self):
        """Of a session that is kept: the broker's copy comes when the client returns. So it is
        shown once, and of that client and topic alone."""
        def coming(present: int) -> str:
            return ("New client connected from 1.2.3.4:5 as m (p2, c0, k60).\n"
                    "Will message specified (2 bytes) (r0, q1).\n\tx\n"
                    f"Sending CONNACK to m ({present}, 0)\n")
        log = (coming(0) + "Received SUBSCRIBE from m\n\tx (QoS 1)\nm 1 x\nSending SUBACK to m\n"
               "Client m closed its connection.\n" + coming(1))
        copy = '{"client":"m","line":3,"payload":"2 bytes","qos":1,"retain":false,"topic":"x"}\n'
        output = ('{"line":1,"reason":0}\n{"line":2,"reason":1}\n' + copy
                  + "".join('{"line":%d,"reason":0}\n' % n for n in (3, 4, 5)))
        own, other = "own will in a session that is kept", "different"
        for after, wanted in ((sent("m", 1, 0), [own, own]), ("", [own]),
                              (sent("m", 1, 0).replace("'x'", "'y'"), [own, other])):
            found = self.compared([log + after], output)
            self.assertEqual(
                (found[0], [line.split(":")[0] for line in found[1].splitlines()]), (1, wanted))
        self.assertEqual(
            self.compared([log + sent("m", 1, 0)], output.replace(copy, ""))[1].split(":")[0],
            other)

    def compared(self, logs: list[str], output: str, *words: str) -> tuple[int, str, str]:
        with tempfile.TemporaryDirectory() as folder:
            names = [f"log.{i}" for i in range(len(logs))]
            for name, text in zip([*names, "output"], [*logs, output]):
                Path(folder, name).write_text(text, encoding="utf-8")
            done = subprocess.run([sys.executable, TOOL, *words, *names, "output"], cwd=folder,
                                  capture_output=True, text=True)
            return done.returncode, done.stdout, done.stderr

    COPY = '{"client":"b","line":4,"payload":"2 bytes","qos":1,"retain":false,"topic":"x"}\n'
    OUTPUT = "".join(
        '{"line":%d,"reason":0}\n' % n for n in (1, 2, 3)) + COPY + '{"line":4,"reason":0}\n'

    def test_several_logs(self):
        self.assertEqual(
            self.compared([CONNECTS, PUBLISH, sent("b", 1, 0)], self.OUTPUT)[:2], (0, ""))

    def test_time_format(self):
        log = "".join(f"22.11.26 at: 10h05: {line}\n"
                      for line in (CONNECTS + PUBLISH + sent("b", 1, 0)).splitlines())
        self.assertEqual(
            self.compared([log], self.OUTPUT, "--time-format", "%d.%m.%y at: %Hh%M")[:2], (0, ""))

    def test_outputs_that_are_not_of_this_log(self):
        for output in (self.OUTPUT[:-22], "", self.OUTPUT + '{"line":5,"reason":0}\n',
                       self.OUTPUT.replace('"x"', '"y"'),
                       self.OUTPUT.replace('1,"reason":0', '1,"reason":16'), "no\n",
                       self.OUTPUT.replace('{"line":2,"reason":0}',
                                           '{"code":11,"line":2,"refused":"NotAuthorized"}')):
            status, out, shown = self.compared([CONNECTS + PUBLISH], output)
            self.assertEqual((status, out, len(shown.splitlines())), (2, "", 1), output)

    def test_memory(self):
        """Nothing is kept of what is compared."""
        with tempfile.TemporaryDirectory() as folder:
            count = 20_000
            Path(folder, "log").write_text(
                CONNECTS + (PUBLISH + sent("b", 1, 0)) * count, encoding="utf-8")
            Path(folder, "output").write_text(
                "".join('{"line":%d,"reason":0}\n' % n for n in (1, 2, 3))
                + "".join(self.COPY.replace("4,", f"{n},") + '{"line":%d,"reason":0}\n' % n
                          for n in range(4, count + 4)))
            tracemalloc.start()
            found = compare(Watcher(None, None, Beginning(State())), Logs([f"{folder}/log"]),
                            f"{folder}/output")
            peak = tracemalloc.get_traced_memory()[1]
            tracemalloc.stop()
            self.assertEqual((found.sent, list(found.lines())), (count, []))
            self.assertLess(peak, 1_000_000)


if __name__ == "__main__":
    unittest.main()
