"""What is printed of other people's texts: nothing that a terminal acts on, that hides itself, that
turns text round or begins a second line."""
import argparse
import contextlib
import io
import json
import re
import subprocess
import sys
import tempfile
import unittest
import xml.etree.ElementTree
from pathlib import Path

from mosquitto import PAHO
from test_preview import wants_programs
from test_replay import OnABroker
from worked import HERE, PROGRAM
from mqroute_tools.common import texts
from mqroute_tools.common.test_results import Outcome, Result, junit, tap_lines
from mqroute_tools.live.broker_diff import Copy, both
from mqroute_tools.search.difference_kinds import Difference, kind
from mqroute_tools.search.finds import Find, Search, Unrepeated
from mqroute_tools.search.known import Known
from mqroute_tools.search.search_report import Report

ACTS = re.compile("[\0-\x09\x0b-\x1f\x7f-\x9f\u061c\u200b-\u200f\u2028\u2029\u202a-\u202e"
                  "\u2060-\u2064\u2066-\u2069\ufeff]")
# All that a client may have in its names over the wire to mosquitto 2.0.11, and then the rest.
TURNS = "\u202eab\u2066\u2028\u2029\u200b\u200e\u200f\u061c\ufeff\u2060"
ODD = "\x1b[31m\x07\x7f\x9b1m\x85\t" + TURNS
OWN = re.compile("[\u2068\u2069](?=[^\n]*</svg>)")  # a page sets them around names in a picture
NAME = "f\x1b[2J\x9b\u202e\u2028\nx"  # of a file: a line feed too


class Printed(unittest.TestCase):
    def assert_plain(self, text: str) -> None:
        found = ACTS.search(text)
        if found:
            near = text[max(0, found.start() - 60):found.end() + 20]
            self.fail(f"{found[0]!r} in .. {near!r} ..")


def script_of(*names: str) -> list[dict]:
    """Clients with such ids, user names, topics, filters and payloads, one of them away."""
    reader, writer, user, topic = names
    return [{"do": "connect", "client": reader, "user": user, "session_expiry": 99},
            {"do": "subscribe", "client": reader, "filter": f"{topic}/#", "qos": 1},
            {"do": "subscribe", "client": reader, "filter": f"$share/{topic}/{topic}/+"},
            {"do": "connect", "client": writer, "user": user},
            {"do": "publish", "client": writer, "topic": f"{topic}/x", "payload": topic, "qos": 1},
            {"do": "unsubscribe", "client": writer, "filter": topic},
            {"do": "disconnect", "client": reader},
            {"do": "publish", "client": writer, "topic": f"{topic}/y", "payload": topic, "qos": 1}]


def lines_of(script: list[dict]) -> str:
    return "".join(json.dumps(command, ensure_ascii=False) + "\n" for command in script)


class Escaping(Printed):
    def test_one_fact(self):
        for text in (ODD, NAME):
            for made in (texts.escaped(text), texts.quoted(text), texts.in_quotes(text),
                         texts.json_text({text: [text]})):
                self.assert_plain(made)
                self.assertNotIn("\n", made)
            self.assertEqual(json.loads(texts.json_text({text: [text]}, indent=1)), {text: [text]})
        self.assertEqual(texts.escaped("a\x1b\u202e\n\t\u00e9 \\"),
                         "a\\u{1b}\\u{202e}\\n\\t\u00e9 \\")
        self.assertEqual(texts.quoted('"\\\x7f'), '"\\"\\\\\\u{7f}"')
        self.assertEqual(texts.json_text("\u202e\U000e0001\ud800"),
                         '"\\u202e\\udb40\\udc01\\ud800"')

    def test_lines(self):
        self.assertEqual(texts.lines("a\u2028b\x85c\u2029\x0bd\r\ne\n"),
                         ["a\u2028b\x85c\u2029\x0bd\r", "e"])
        self.assertEqual((texts.lines(""), texts.lines("\n\n")), ([], ["", ""]))
        self.assertEqual(texts.ended_lines("a\u2028\n\nb"), ["a\u2028\n", "\n", "b"])

    def test_results_of_tests(self):
        result = Result(NAME, f"# {NAME}", Outcome.FAILED, f"{ODD}\nok 99 - y")
        tap = tap_lines(1, result)
        self.assertEqual([line[:2] for line in tap], ["no", "# ", "# "])
        tree = xml.etree.ElementTree.fromstring(junit([result]).split("\n", 1)[1])
        for text in (*tap, *(text for one in tree.iter()
                             for text in (*one.attrib.values(), one.text or ""))):
            self.assert_plain(text)


class Case(Printed):
    def setUp(self) -> None:
        folder = tempfile.TemporaryDirectory()
        self.addCleanup(folder.cleanup)
        self.folder = Path(folder.name)

    def write(self, name: str, text: str) -> str:
        (self.folder / name).write_text(text, "utf-8", "surrogateescape", newline="")
        return name

    def made(self, name: str, *words: str) -> str:
        """What mqroute writes for a script."""
        done = subprocess.run([PROGRAM, *words], cwd=self.folder, capture_output=True)
        self.assertIn(done.returncode, (0, 1), done.stderr)
        (self.folder / name).write_bytes(done.stdout)
        return name

    def look_at(self, tool: str, *words: str, stderr_lines: int | None = None,
                python: str = sys.executable) -> str:
        """Runs a tool, and looks at all that it prints."""
        done = subprocess.run([python, HERE / f"{tool}.py", *words], cwd=self.folder,
                              capture_output=True)
        with self.subTest(tool, words=words):
            self.assertIn(done.returncode, (0, 1, 2))
            for stream in (done.stdout, done.stderr):
                self.assert_plain(stream.decode("utf-8"))
            self.assertNotIn(b"Traceback", done.stderr)
            self.assertNotIn(b"a fault of this tool", done.stderr)
            if stderr_lines is not None:
                self.assertEqual(done.stderr.count(b"\n"), stderr_lines, done.stderr)
        return done.stdout.decode("utf-8")

    def look_at_page(self, name: str) -> None:
        page = (self.folder / name).read_text("utf-8")
        self.assert_plain(OWN.sub("", page))
        self.assertIn("\\u{202e}", page)


@wants_programs
class OfFiles(Case):
    def setUp(self) -> None:
        super().setUp()
        topic, user = ODD, f"u{ODD}"
        self.write("script", lines_of(script_of(f"c{ODD}", f"w{ODD}", user, topic)))
        self.write(NAME, (self.folder / "script").read_text("utf-8"))
        self.write("old.acl", f"user {user}\ntopic readwrite {topic}/#\n")
        self.write("new.acl", f"user {user}\ntopic read {topic}/#\ntopic write {topic}/y\n"
                   f"topic write {topic}/y\npattern read {topic}\n")
        self.write("plan", f"{topic}/x -> new{TURNS}/x\n{topic}/+ -> new{TURNS}/+\n")
        self.made("before", "--acl-file", "old.acl", "script")
        self.made("after", "--acl-file", "new.acl", "script")

    def test_check(self):
        self.write("wrong", "".join(json.dumps(one, ensure_ascii=False) + "\n" for one in (
            {"do": ODD}, {"do": "connect", "client": "", "user": ODD, ODD: 1},
            {"do": "subscribe", "client": ODD, "filter": f"{ODD}#"}, [ODD], {ODD: "connect"}))
            + f"{{{ODD}\n")
        self.assertIn("\\u202e", self.look_at("check", "wrong"))
        self.look_at("check", NAME)
        self.write(f"bad{NAME}", ODD)
        self.look_at("check", f"bad{NAME}", stderr_lines=1)
        self.look_at("check", f"absent{NAME}", stderr_lines=1)
        self.look_at("check", f"--{ODD}")
        self.look_at("check", NAME, ODD)

    def test_who_loses(self):
        runs = ["script", "before", "after"]
        lists = ["--acl-before", "old.acl", "--acl-after", "new.acl"]
        self.assertIn("\\u{202e}", self.look_at("who_loses", "--why", *lists, *runs))
        self.look_at("who_loses", "--by", "user", *lists, *runs)
        json.loads(self.look_at("who_loses", "--json", "--html", "page", *lists, *runs))
        self.look_at_page("page")
        self.write(f"cut{NAME}", '{"client":"a"}\n')
        self.look_at("who_loses", NAME, "before", f"cut{NAME}", stderr_lines=1)
        self.look_at("who_loses", *lists, "script", "after", "before", stderr_lines=1)
        self.look_at("who_loses", "script", "before", NAME, stderr_lines=1)
        copy = {"client": "a\u202e", "filter": "b", "line": 1, "payload": "", "qos": 0,
                "retain": False, "topic": TURNS}
        other = self.write("other", f"{texts.json_text(copy)}\n" '{"line":1,"reason":0}\n')
        self.look_at("who_loses", "script", "before", other, stderr_lines=1)

    def test_why(self):
        for words in (["script", "5"], ["script", "5", f"c{ODD}"], ["script", "8", f"w{ODD}"],
                      ["--json", "script", "5"], [NAME, "5"], [NAME, "1"], [NAME, "77"],
                      ["script", "5", ODD]):
            for more in ([], ["--acl-file", "old.acl"], ["--acl-file", "new.acl"]):
                self.look_at("why", *more, *words)

    def test_preview(self):
        self.write(f"{NAME}.acl", (self.folder / "new.acl").read_text("utf-8"))
        rules = ["--rules", "own"]
        words = ["--html", "page", "--title", ODD, "old.acl", f"{NAME}.acl", NAME]
        self.assertIn("\\u{202e}", self.look_at("preview", *rules, *words))
        self.look_at_page("page")
        json.loads(self.look_at("preview", *rules, "--json", *words))
        self.look_at("preview", *rules, "--plan", "plan", *words)
        self.look_at_page("page")
        self.look_at("preview", "--rules", "mosquitto", *words)
        self.write(f"bad{NAME}", f"topic read a\n{ODD} b\ntopic\tread {ODD}\n")
        self.assertIn("DON'T RELOAD bad", self.look_at(
            "preview", "--html", "page", "old.acl", f"bad{NAME}", NAME, stderr_lines=1))
        self.look_at_page("page")
        json.loads(self.look_at("preview", "--json", "old.acl", f"bad{NAME}", NAME))
        self.look_at("preview", "old.acl", f"absent{NAME}", NAME, stderr_lines=1)

    def test_plan(self):
        self.write(NAME, f"{ODD}/+ -> new{ODD}/+\n")
        for words in (["check", "plan"], ["check", "--script", "script", "plan"],
                      ["check", "--script", "script", "--acl-file", "old.acl", "plan"],
                      ["check", "--json", "--script", "script", "plan"], ["name", "plan", ODD],
                      ["name", "plan", f"{ODD}/x", f"{ODD}/#", f"{ODD}/+", f"$share/{ODD}/#"],
                      ["name", "plan", f"{ODD}#"], ["script", "plan", "script"],
                      ["compare", "plan", "script", "script"], ["check", f"absent{NAME}"],
                      ["name", NAME, f"{ODD}/x"]):
            self.look_at("plan", *words)
        for line in (f"a{ODD}# -> x", f"{ODD}", f"+{ODD} -> x/+b"):
            self.write(NAME, line)
            self.look_at("plan", "check", NAME, stderr_lines=1)

    def test_plan_of_a_list(self):
        """The list that is written has its lines as they are; what is said of it is looked at."""
        done = subprocess.run([sys.executable, HERE / "plan.py", "acl", "plan", "old.acl"],
                              cwd=self.folder, capture_output=True)
        self.assertIn(done.returncode, (0, 1), done.stderr)
        self.assert_plain(done.stderr.decode("utf-8"))


def log(*lines: str) -> str:
    return "".join(f"1795358535: {line}\n" for line in lines)


def arrived(client: str, user: str) -> list[str]:
    return [f"New client connected from 1.2.3.4:5 as {client} (p5, c1, k60, u'{user}').",
            "No will message specified.", f"Sending CONNACK to {client} (0, 0)"]


@wants_programs
class OfLogs(Case):
    def setUp(self) -> None:
        super().setUp()
        client, topic = f"c{ODD}", ODD
        self.write("log", log(
            *arrived(client, f"u{ODD}"), f"Received SUBSCRIBE from {client}",
            f"\t{topic} (QoS 1)", f"{client} 1 {topic}", f"Sending SUBACK to {client}",
            f"Received PUBLISH from {client} (d0, q0, r0, m0, '{topic}', ... (3 bytes))",
            f"Sending PUBLISH to {client} (d0, q1, r0, m1, '{topic}', ... (3 bytes))",
            f"Sending PUBLISH to other{ODD} (d0, q0, r0, m0, '{topic}', ... (3 bytes))",
            f"Denied PUBLISH from {client} (d0, q0, r0, m0, '{topic}', ... (3 bytes))",
            f"what is this {ODD}"))
        self.write(NAME, (self.folder / "log").read_text("utf-8"))
        self.write("acl", "topic readwrite #\npattern readwrite #\n")

    def test_log_to_script(self):
        script = self.look_at("log_to_script", "--state", "state", NAME)
        self.assertIn("\\u202e", script)
        for line in script.split("\n")[:-1]:
            json.loads(line)
        self.look_at("log_to_script", "--no-inference", NAME)
        self.look_at("log_to_script", "--time-format", ODD, NAME)
        self.look_at("log_to_script", "--begin", NAME, "log", stderr_lines=1)
        self.assert_plain((self.folder / "state").read_text("utf-8"))

    def test_compare_log(self):
        script = self.look_at("log_to_script", NAME)
        self.write("script", script)
        self.made("output", "script")
        self.assertIn("\\u{202e}", self.look_at("compare_log", NAME, "output"))
        self.look_at("compare_log", "output", NAME, stderr_lines=1)

    def test_why_and_preview(self):
        self.look_at("why", "--log", NAME, "--topic", ODD, "--at", "1795358535")
        self.look_at("why", "--log", NAME, "--topic", f"x{ODD}", "--at", "1795358535")
        self.look_at("why", "--log", NAME, "--topic", ODD, "--at", ODD)
        for more in ([], ["--json"]):
            self.look_at("preview", "--rules", "mosquitto", *more, "acl", "acl", NAME)


class OfSearch(Printed):
    """What it prints and writes of a find, with names that a known script may have."""

    def setUp(self) -> None:
        folder = tempfile.TemporaryDirectory()
        self.addCleanup(folder.cleanup)
        self.folder = Path(folder.name)
        script = [{"do": "acl", "text": f"topic {ODD} x\n"}, *script_of(*[ODD] * 4)]
        texts_of = both(f"{ODD} {ODD}", "nothing", Copy(ODD, ODD, 0, False, ODD, [], None))
        self.differences = [Difference(6, "publish: more", texts_of)]
        self.find = Find(kind(script, self.differences[0]), script, [], self.differences)

    def printed(self, **more) -> str:
        options = {"save": None, "seed": 1, "json": False, "verbose": True, "junit": None}
        search = Search(None, None)
        search.passing.append(Unrepeated(1, self.find.script, self.differences[0]))
        search.known.append(Known(NAME, self.find.script, [], "it has an access list"))
        with (contextlib.redirect_stdout(io.StringIO()) as out,
              contextlib.redirect_stderr(io.StringIO()) as shown):
            report = Report(search, argparse.Namespace(**options | more))
            report.add(self.find)
            report.end()
        self.assert_plain(out.getvalue() + shown.getvalue())
        return out.getvalue()

    def test_a_find(self):
        self.assertIn("\\u{202e}", self.printed(save=self.folder, junit=f"{self.folder}/junit"))
        for line in self.printed(json=True).split("\n")[:-1]:
            json.loads(line)
        for name in ("find-1.jsonl", "find-1.diff", "junit"):
            self.assert_plain((self.folder / name).read_text("utf-8"))


@unittest.skipUnless(PAHO, "there is no python3-paho-mqtt")
class OnLiveBroker(OnABroker, Printed):
    """mosquitto takes such names; it refuses control characters."""

    def look_at(self, tool: str, *words: str) -> str:
        done = subprocess.run([PAHO, HERE / f"{tool}.py", "--port", str(self.port), *words],
                              cwd=self.folder.name, capture_output=True, timeout=60)
        self.assertIn(done.returncode, (0, 1), done.stderr)
        for stream in (done.stdout, done.stderr):
            self.assert_plain(stream.decode("utf-8"))
        return done.stdout.decode("utf-8")

    def test_replay(self):
        self.start()
        script = script_of(f"c{TURNS}", f"w{TURNS}", f"u{TURNS}", TURNS)[:5]
        folder = Path(self.folder.name)
        (folder / "script").write_text(lines_of(script), "utf-8")
        done = subprocess.run([PROGRAM, folder / "script"], capture_output=True)
        (folder / "output").write_bytes(done.stdout)
        self.assertEqual(self.look_at("replay", "script", "output"), "")
        (folder / "output").write_bytes(done.stdout.replace(b'"qos":1', b'"qos":0'))
        self.assertIn("\\u202e", self.look_at("replay", "script", "output"))
        cases = folder / f"cases{NAME}"
        cases.mkdir()
        for name, held in (("script", f"{NAME}.jsonl"), ("output", f"{NAME}.out")):
            (cases / held).write_bytes((folder / name).read_bytes())
        (cases / "cases.json").write_text(json.dumps(
            {"title": ODD, "cases": {NAME: {"says": ODD, "sections": [ODD]}}}), "utf-8")
        for words in ([], ["--tap"], ["--json"], ["--junit", "junit"]):
            self.look_at("replay", "--all", cases.name, *words)
        tap = self.look_at("replay", "--all", cases.name, "--tap").split("\n")
        self.assertEqual([line[:8] for line in tap if not line.startswith("#")],
                         ["TAP vers", "1..1", "not ok 1", ""])
        self.assert_plain((folder / "junit").read_text("utf-8"))

    def test_known(self):
        """A find whose names have such characters, as replay stores it, raw or escaped."""
        self.start()
        folder = Path(self.folder.name)
        script = [{"do": "connect", "client": "a"},
                  {"do": "subscribe", "client": "a", "filter": TURNS},
                  {"do": "publish", "client": "a", "topic": TURNS, "payload": "p"}]
        (folder / "known.jsonl").write_text(lines_of(script), "utf-8")
        for head in (f"   a {TURNS}", f"   a {texts.escaped(TURNS)}"):
            (folder / "known.diff").write_text(
                f"line 3: {lines_of(script[2:])}{head}\n      mqroute: nothing\n"
                "      broker:  qos 0, retain false, payload \"p\"\n", "utf-8")
            done = subprocess.run(
                [PAHO, HERE / "search.py", "--port", str(self.port), "--scripts", "1", "--known",
                 "."], cwd=self.folder.name, capture_output=True, timeout=100)
            self.assertNotIn(b"Traceback", done.stderr)
            self.assertIn(b"known: known.jsonl: no longer seen as stored", done.stderr)


if __name__ == "__main__":
    unittest.main()
