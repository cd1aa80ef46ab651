"""Cases in folders: what is read of them, how they are judged and shown; and on a mosquitto."""
import json
import os
import socket
import subprocess
import tempfile
import threading
import time
import unittest
import xml.etree.ElementTree
from pathlib import Path

import mosquitto
from mosquitto import PAHO, wants_paho
from test_replay import OnABroker
from worked import HERE, PROGRAM, wants_program
from mqroute_tools.common.exit_status import Fault
from mqroute_tools.common.test_results import Outcome, Result, junit, tap_lines
from mqroute_tools.live.cases import read_sections
from mqroute_tools.live.group_members import with_their_members
from mqroute_tools.live.broker_diff import Copy
from mqroute_tools.live.line_difference import LineDifference
from mqroute_tools.live.options import BrokerOptions
from mqroute_tools.live.started_broker import wait_for_silence
from mqroute_tools.script.sessions import Sessions

A = {"do": "connect", "client": "a"}
X = {"do": "subscribe", "client": "a", "filter": "x"}
OWN = X | {"no_local": True}
PUBLISH = {"do": "publish", "client": "a", "topic": "x", "payload": "1"}
RIGHT = [A, X, PUBLISH]
# mosquitto sends the retained message in spite of No Local
WRONG = [A, PUBLISH | {"retain": True}, OWN]


def lines(script: list) -> str:
    return "".join(json.dumps(command) + "\n" for command in script)


def write_case(folder: str, section: str, name: str, script: list, **about: object) -> None:
    place = Path(folder, section)
    place.mkdir(exist_ok=True)
    (place / f"{name}.jsonl").write_text(lines(script))
    done = subprocess.run([PROGRAM], input=lines(script), capture_output=True, text=True)
    (place / f"{name}.out").write_text(done.stdout)
    index = place / "cases.json"
    held = json.loads(index.read_text()) if index.exists() else {"title": section.title()}
    held.setdefault("cases", {})[name] = about
    index.write_text(json.dumps(held))


@wants_program
class Reading(unittest.TestCase):
    def setUp(self) -> None:
        folder = tempfile.TemporaryDirectory()
        self.addCleanup(folder.cleanup)
        self.folder = folder.name

    def test_what_is_read(self):
        write_case(self.folder, "one", "own", WRONG, says="Own ones.", sections=["3.8.3.1"],
                   any_member="4.8.2", free={"3": "why"})
        write_case(self.folder, "two", "right", RIGHT)
        Path(self.folder, "two/right.acl").write_text("topic #\n")
        first, second = read_sections(Path(self.folder))
        [own], [right] = first.cases, second.cases
        self.assertEqual((first.title, own.path, own.any_member, own.free, own.script),
                         ("One", "one/own", True, {3: "why"}, WRONG))
        self.assertEqual(own.about(), "one/own: Own ones. (3.8.3.1)")
        self.assertEqual((right.acl, right.has_lists(), own.has_lists()),
                         ("topic #\n", True, False))

    def test_free(self):
        """Some lines are to brokers that close the connection, and no more."""
        write_case(self.folder, "one", "right", RIGHT, free={"2": "3.3.4", "3": "closed: 1.5.4"})
        [section] = read_sections(Path(self.folder))
        [case] = section.cases
        found = [case.is_free(LineDifference(line, "publish", [], ended))
                 for line in (1, 2, 3) for ended in ("", "closed")]
        self.assertEqual(found, [False, False, True, True, False, True])

    def test_faults(self):
        write_case(self.folder, "one", "right", RIGHT)
        place = Path(self.folder, "one")
        for name, text, said in (
                ("cases.json", "{", "not JSON"),
                ("cases.json", "[]", 'must be an object with "title"'),
                ("cases.json", '{"cases":{"none":{}}}', "there is no none.jsonl"),
                ("cases.json", '{"cases":{"right":{"free":{"x":"y"}}}}', '"free" must have lines'),
                ("right.out", '{"line":1,"reason":0}\n', "another number of lines"),
                ("right.jsonl", lines(RIGHT) + "\n" + lines(RIGHT), ":4: blank"),
                ("right.jsonl", "{}\n", ':1: "do" is missing'),
                ("none.jsonl", lines(RIGHT), "there is no none.out beside it")):
            before = (place / name).read_text() if (place / name).exists() else None
            (place / name).write_text(text)
            with self.assertRaisesRegex(Fault, said):
                list(read_sections(Path(self.folder)))
            (place / name).write_text(before) if before else (place / name).unlink()
        for folder in ("/nowhere", str(place.parent / "empty")):
            Path(self.folder, "empty").mkdir(exist_ok=True)
            with self.assertRaisesRegex(Fault, "there is no "):
                list(read_sections(Path(folder)))


class Members(unittest.TestCase):
    def test_any_member(self):
        """The copy of a group as the member gets it that the broker chose."""
        sessions = Sessions()
        for client, more in (("a", {"qos": 1}), ("b", {"qos": 2, "rap": True, "id": 7})):
            sessions.follow({"do": "connect", "client": client})
            sessions.follow({"do": "subscribe", "client": client, "filter": "$share/g/x", **more})
        message = PUBLISH | {"qos": 2, "retain": True}
        ours = [Copy("a", "x", 1, False, "1", [], None, "$share/g/x")]
        theirs = Copy("b", "x", 2, True, "1", [7], None)
        self.assertEqual(
            [copy.client for copy in with_their_members(ours, [theirs], message, sessions)], ["b"])
        for wrong in ([], [theirs, theirs._replace(client="a")], [theirs._replace(ids=[])],
                      [theirs._replace(qos=1)], [theirs._replace(client="c")]):
            self.assertEqual(with_their_members(ours, wrong, message, sessions), ours, wrong)


class Formats(unittest.TestCase):
    RESULTS = [Result("s", "good", Outcome.PASSED), Result("s", "bad", Outcome.FAILED, "a\n\1<b>"),
               Result("t", "out", Outcome.SKIPPED, "why"), Result("t", "no", Outcome.ERROR, "gone")]

    def test_junit(self):
        read = xml.etree.ElementTree.fromstring(junit(self.RESULTS).encode())
        self.assertEqual([(suite.get("name"), suite.get("tests"), suite.get("failures"),
                           suite.get("errors"), suite.get("skipped")) for suite in read],
                         [("s", "2", "1", "0", "0"), ("t", "2", "0", "1", "1")])
        self.assertEqual(read.find(".//failure").text, "a\n\\u{1}<b>")

    def test_tap(self):
        found = [line for number, one in enumerate(self.RESULTS, 1)
                 for line in tap_lines(number, one)]
        self.assertEqual(found, ["ok 1 - s/good", "not ok 2 - s/bad", "# a", "# \\u{1}<b>",
                                 "ok 3 - t/out # SKIP why", "not ok 4 - t/no", "# gone"])


class Ended(unittest.TestCase):
    def test_what_the_shell_began_is_waited_for(self):
        """The next broker is to begin where this one listened, which goes on for a moment."""
        with socket.create_server(("127.0.0.1", 0)) as listening:
            where = BrokerOptions(*listening.getsockname())
            began = time.monotonic()
            threading.Timer(0.5, lambda: (listening.shutdown(socket.SHUT_RDWR),
                                          listening.close())).start()
            wait_for_silence(where)
            self.assertGreaterEqual(time.monotonic() - began, 0.4)
        wait_for_silence(where)  # and here nothing is


@wants_paho
@wants_program
class OnMosquitto(OnABroker):
    def setUp(self):
        super().setUp()
        self.corpus, self.known = f"{self.folder.name}/corpus", f"{self.folder.name}/known"
        for folder in (self.corpus, self.known):
            Path(folder).mkdir()
        write_case(self.corpus, "own", "right", RIGHT)
        write_case(self.corpus, "own", "wrong", WRONG, says="Own ones.", sections=["3.8.3.1"])
        write_case(self.corpus, "rest", "free", WRONG, free={"3": "3.8.3.1"})
        write_case(self.corpus, "rest", "list", [A, {"do": "acl", "text": "topic #\n"}])

    def run_all(self, *words: str) -> tuple[int, str, str]:
        done = subprocess.run(
            [PAHO, HERE / "replay.py", "--port", str(self.port), "--all", self.corpus, *words],
            capture_output=True, text=True, timeout=60, cwd=self.folder.name,
            env=os.environ | {"MQROUTE": str(PROGRAM)})
        return done.returncode, done.stdout, done.stderr

    def test_on_one_broker(self):
        self.start(access="pattern readwrite #\n")
        status, out, shown = self.run_all()
        self.assertEqual(status, 1, shown)
        self.assertTrue(out.startswith("own/wrong: Own ones. (3.8.3.1)\nline 3: "), out)
        self.assertEqual(out.splitlines()[-4:], [
            "section  cases  agrees  free  known  differs  left out",
            "Own          2       1     0      0        1         0",
            "Rest         2       0     1      0        0         1",
            "all          4       1     1      0        1         1"])
        self.assertEqual(shown,
                         "replay: 1 case left out: it has an access list: give --on-acl\n")

    def test_what_is_known(self):
        """Saved, it is known; what is no longer seen is said."""
        self.start()
        self.assertEqual(self.run_all("--save", self.known)[0], 1)
        self.assertEqual([str(file.relative_to(self.known)) for file in
                          Path(self.known).glob("*/*")], ["own/wrong.diff"])
        status, out, _ = self.run_all("--known", self.known)
        self.assertEqual((status, out.splitlines()[-1].split()),
                         (0, ["all", "4", "1", "1", "1", "0", "1"]))
        file = Path(self.known, "own/wrong.diff")
        file.write_text(file.read_text().replace("true", "false"))
        status, _, shown = self.run_all("--known", self.known)
        self.assertEqual(status, 1)
        self.assertIn("own/wrong: known, and no longer seen as stored, at line 3\n", shown)

    def test_formats(self):
        self.start()
        status, out, _ = self.run_all("--json", "--junit", "found.xml")
        *cases, last = map(json.loads, out.splitlines())
        self.assertEqual([case["outcome"] for case in cases],
                         ["agrees", "differs", "free", "left out"])
        self.assertEqual((last["cases"], last["differs"], cases[1]["differences"][0]["line"]),
                         (4, 1, 3))
        read = xml.etree.ElementTree.parse(f"{self.folder.name}/found.xml")
        self.assertEqual(len(read.findall(".//failure")), 1)
        status, out, _ = self.run_all("--tap")
        self.assertEqual([line for line in out.splitlines() if not line.startswith("#")], [
            "TAP version 13", "1..4", "ok 1 - own/right", "not ok 2 - own/wrong",
            "ok 3 - rest/free", "ok 4 - rest/list # SKIP it has an access list: give --on-acl"])

    def test_a_broker_begun_for_each(self):
        Path(self.folder.name, "acl").write_text("")
        conf = Path(self.folder.name, "conf")
        conf.write_text(f"listener {self.port} 127.0.0.1\nallow_anonymous true\n"
                        f"user {subprocess.getoutput('id -un')}\n")
        command = f"exec {mosquitto.MOSQUITTO} -c {conf}"
        status, out, shown = self.run_all("--start", command)
        self.assertEqual((status, out.splitlines()[-1].split()),
                         (1, ["all", "4", "1", "1", "0", "1", "1"]), shown)
        status, _, shown = self.run_all("--start", "echo no broker; exit 3")
        self.assertEqual((status, shown), (
            2, "replay: the command of --start: it ended with status 3; no broker\n"))

    def test_usage(self):
        for words, said in ((["--all", "x", "script"], "--all can't be used with SCRIPT"),
                            (["--all", "x", "--wills"], "--all can't be used with --wills"),
                            (["--all", "x", "--tap", "--json"], "--tap can't be used with --json"),
                            (["--tap", "script", "output"], "--tap needs --all"),
                            (["script"], "needs SCRIPT and OUTPUT, or --all FOLDER")):
            done = subprocess.run(
                [PAHO, HERE / "replay.py", *words], capture_output=True, text=True)
            self.assertEqual(done.returncode, 2)
            self.assertIn(f"replay.py: error: {said}", done.stderr)


if __name__ == "__main__":
    unittest.main()
