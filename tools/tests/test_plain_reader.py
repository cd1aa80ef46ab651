"""The plain reader where there is no mqroute: as an oracle, in the tools, and as a program."""
import json
import os
import shutil
import subprocess
import sys
import tempfile
import unittest
import warnings
from pathlib import Path
from unittest import mock

from mosquitto import PAHO, wants_paho
from test_odd_brokers import OddBroker, acknowledged
from worked import HERE, PROGRAM, wants_program
from mqroute_tools.plain.reader import Reader
from mqroute_tools.script import oracle
from mqroute_tools.script.oracle import UNPROVED, Oracle, OracleFault, PlainNote, Unproved

CONNECT = {"do": "connect", "client": "a"}
SUBSCRIBE = {"do": "subscribe", "client": "a", "filter": "#", "qos": 1}
PUBLISH = {"do": "publish", "client": "a", "topic": "ä", "payload": "1", "qos": 2}
COPY = {"client": "a", "line": 3, "payload": "1", "qos": 1, "retain": False, "topic": "ä"}
SCRIPT = [CONNECT, SUBSCRIBE, PUBLISH]


class AsAnOracle(unittest.TestCase):
    def test_as_the_program_answers(self):
        wanted = [[{"line": 1, "reason": 0}], [{"line": 2, "reason": 1}],
                  [COPY, {"line": 3, "reason": 0}]]
        with Oracle(plain=True) as plain:
            self.assertEqual(plain.run(SCRIPT), wanted)
            self.assertEqual([plain.answers(command) for command in SCRIPT], wanted)

    def test_access_list_and_limits(self):
        with Oracle("user v\ntopic #\n", max_queued=0, rules="mosquitto", plain=True) as plain:
            self.assertEqual(plain.answers(CONNECT), [{"line": 1, "reason": 0}])
            self.assertEqual(plain.answers(PUBLISH), [
                {"code": 11, "line": 2, "refused": "NotAuthorized"}])
        with Oracle("topick #\n", plain=True) as plain:
            for ask in (lambda: plain.run(SCRIPT), lambda: plain.answers(CONNECT)):
                with self.assertRaisesRegex(OracleFault, "access list line 1: Keyword"):
                    ask()

    def test_reset(self):
        for plain in (True, False):
            if not plain and not PROGRAM.exists():
                continue
            with Oracle(plain=plain, program=str(PROGRAM)) as one:
                self.assertEqual(one.answers(CONNECT), [{"line": 1, "reason": 0}])
                self.assertEqual(one.answers(SUBSCRIBE), [{"line": 2, "reason": 1}])
                one.reset()
                self.assertEqual(one.answers(PUBLISH)[0]["refused"], "NotConnected")
                self.assertEqual(one.answers(CONNECT), [{"line": 2, "reason": 0}])

    def test_said_once(self):
        with (mock.patch.object(oracle, "existing_program", return_value=None),
              mock.patch.object(oracle, "plain_reader", PlainNote()),
              warnings.catch_warnings(record=True) as said):
            warnings.simplefilter("always")
            self.assertTrue(Oracle().is_plain)
            self.assertTrue(Oracle().is_plain)
            self.assertEqual([(str(one.message), one.category, Path(one.filename).name)
                              for one in said], [(UNPROVED, Unproved, Path(__file__).name)])

    @wants_program
    def test_the_program_comes_first(self):
        with mock.patch.dict(os.environ, MQROUTE=str(PROGRAM)), Oracle() as one:
            self.assertFalse(one.is_plain)


class AsAProgram(unittest.TestCase):
    def run_module(self, *words: str, script: list = SCRIPT) -> tuple[int, list]:
        text = "".join(json.dumps(command) + "\n" for command in script)
        done = subprocess.run([sys.executable, "-m", "mqroute_tools.plain", *words], cwd=HERE,
                              input=text, capture_output=True, text=True)
        return done.returncode, [json.loads(line) for line in done.stdout.splitlines()]

    def test_statuses(self):
        self.assertEqual(self.run_module("--unbuffered"), (0, [
            {"line": 1, "reason": 0}, {"line": 2, "reason": 1}, COPY, {"line": 3, "reason": 0}]))
        self.assertEqual(self.run_module(script=[PUBLISH])[0], 1)
        self.assertEqual(self.run_module("/nowhere"), (2, []))

    def test_a_line_that_only_ends_the_file(self):
        self.assertEqual(list(Reader().answers([b'{"do":"stat"}\r\n', b"", b'{"do":"stat"}'])), [
            b'{"line":1,"nodes":0,"retained":0,"subscriptions":0}\n', b"",
            b'{"line":3,"nodes":0,"retained":0,"subscriptions":0}\n'])


@wants_paho
class InTheTools(unittest.TestCase):
    """A copy of the tools, beside which there is no program."""

    def setUp(self) -> None:
        folder = tempfile.TemporaryDirectory()
        self.addCleanup(folder.cleanup)
        self.tools = Path(folder.name, "tools")
        shutil.copytree(HERE, self.tools, ignore=shutil.ignore_patterns("tests", "__pycache__"))
        self.case = Path(folder.name, "cases")
        self.case.mkdir()
        (self.case / "one.jsonl").write_text(json.dumps(CONNECT) + "\n")
        (self.case / "one.out").write_text('{"line":1,"reason":0}\n')
        self.broker = OddBroker(acknowledged)
        self.addCleanup(self.broker.listening.close)

    def run_tool(self, tool: str, *words: str) -> tuple[int, str]:
        env = {name: value for name, value in os.environ.items() if name != "MQROUTE"}
        done = subprocess.run(
            [PAHO, self.tools / f"{tool}.py", "--port", str(self.broker.port), "--patience", "1",
             *words], capture_output=True, text=True, timeout=60, env=env | {"PATH": "/nowhere"})
        return done.returncode, done.stderr

    def test_replay_says_so_once(self):
        status, said = self.run_tool("replay", "--all", str(self.case))
        self.assertEqual((status, said), (0, f"replay: {UNPROVED}\n"))

    def test_search_says_so_once(self):
        _, said = self.run_tool("search", "--minutes", "0.03", "--seed", "1")
        self.assertEqual(said.count(UNPROVED), 1, said)


if __name__ == "__main__":
    unittest.main()
