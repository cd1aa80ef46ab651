"""The table of who loses what, on outputs written by hand."""
import json
import subprocess
import sys
import tempfile
import unittest
from pathlib import Path

from worked import HERE

TOOL = HERE / "who_loses.py"


def copy(line: int, client: str, topic: str, **more) -> str:
    return json.dumps(
        {"client": client, "line": line, "payload": "", "qos": 0, "retain": False, "topic": topic}
        | more, separators=(",", ":"))


def accepted(line: int, reason: int = 0) -> str:
    return json.dumps({"line": line, "reason": reason}, separators=(",", ":"))


def refused(line: int, name: str = "NotAuthorized") -> str:
    return json.dumps({"code": 11, "line": line, "refused": name})


def publish(client: str, topic: str) -> str:
    return json.dumps({"do": "publish", "client": client, "topic": topic})


class Tables(unittest.TestCase):
    def run_tool(self, script: list[str], before: list[str], after: list[str],
                 *options: str) -> tuple[int, str, str]:
        with tempfile.TemporaryDirectory() as folder:
            names = []
            for name, lines in (("script", script), ("before", before), ("after", after)):
                names.append(f"{folder}/{name}")
                Path(names[-1]).write_text("".join(line + "\n" for line in lines), encoding="utf-8")
            done = subprocess.run([sys.executable, TOOL, *options, *names], capture_output=True,
                                  text=True, encoding="utf-8")
            return done.returncode, done.stdout, done.stderr.replace(folder + "/", "")

    SCRIPT = [publish("p", "x/1"), "", publish("p", "x/2"), publish("q", "x")]
    BEFORE = [copy(1, "a", "x/1"), copy(1, "b", "x/1"), accepted(1), copy(3, "a", "x/2"),
              accepted(3), copy(4, "a", "x"), accepted(4)]
    AFTER = [copy(1, "a", "x/1", qos=1), accepted(1), refused(3), copy(4, "a", "x"),
             copy(4, "c", "x"), accepted(4)]

    def test_nothing(self):
        self.assertEqual(self.run_tool(self.SCRIPT, self.BEFORE, self.BEFORE), (0, "", ""))

    def test_table(self):
        status, out, _ = self.run_tool(self.SCRIPT, self.BEFORE, self.AFTER)
        self.assertEqual((status, out), (1, """\
Copies
client  topic  before  after  lost  gained  changed
a       x/1         1      1     0       0        1
a       x/2         1      0     1       0        0
b       x/1         1      0     1       0        0
c       x           0      1     0       1        0

Refused
client  topic  before  after  why
p       x/2         0      1  NotAuthorized 1

In all 4 copies before and 3 after: 2 lost, 1 gained, 1 changed. 0 lines refused before, 1 after.
"""))

    def test_depth(self):
        status, out, _ = self.run_tool(
            self.SCRIPT, self.BEFORE, self.AFTER, "--depth", "1", "--json")
        found = json.loads(out)
        self.assertEqual(status, 1)
        self.assertEqual(found["copies"][0], {"client": "a", "topic": "x/#", "before": 2,
                                              "after": 1, "lost": 1, "gained": 0, "changed": 1})
        self.assertEqual(found["refused"], [{"client": "p", "topic": "x/#", "before": 0, "after": 1,
                                             "newly": {"NotAuthorized": 1}, "no_longer": {}}])
        self.assertEqual(found["totals"]["lost"], 2)

    def test_lost_and_gained_elsewhere_are_both_shown(self):
        before = [copy(1, "a", "x"), accepted(1), accepted(2)]
        after = [accepted(1), copy(2, "a", "x"), accepted(2)]
        status, out, _ = self.run_tool([publish("p", "x")] * 2, before, after)
        self.assertEqual(status, 1)
        self.assertIn("a       x           1      1     1       1        0", out)

    def test_no_longer_refused(self):
        status, out, _ = self.run_tool([publish("p", "x")], [refused(1)], [accepted(1)])
        self.assertEqual(status, 1)
        self.assertIn("no longer NotAuthorized 1", out)

    def test_names_that_would_break_the_table(self):
        status, out, _ = self.run_tool(
            [publish("p", "名 x")], [copy(1, "a\n", "名 x"), accepted(1)], [accepted(1)])
        self.assertIn('"a\\n"   名 x', out)

    def test_outputs_of_other_scripts(self):
        for before, after in ((self.BEFORE, self.BEFORE[:-2]),
                              (self.BEFORE + [accepted(9)], self.BEFORE + [accepted(9)]),
                              (["no"], ["no"]), (["[]"], ["[]"])):
            status, out, shown = self.run_tool(self.SCRIPT, before, after)
            self.assertEqual((status, out), (2, ""))
            self.assertTrue(shown.startswith("who_loses: "), shown)

    def refuses(self, script: list[str], before: list[str], after: list[str], shown: str) -> None:
        self.assertEqual(self.run_tool(script, before, after), (2, "", f"who_loses: {shown}\n"))

    def test_lines_without_an_answer(self):
        neither = "script:{}: answered in neither output: a run failed or is cut short"
        self.refuses(self.SCRIPT, [], [], neither.format(1))
        self.refuses(self.SCRIPT, self.BEFORE[:3], self.AFTER[:2], neither.format(3))
        self.refuses(self.SCRIPT, self.BEFORE[:5], self.AFTER[:3], neither.format(4))
        alone = (
            "script:3: not answered in {}: a run failed or is cut short, or is of another script")
        self.refuses(self.SCRIPT, self.BEFORE[:3], self.AFTER, alone.format("before"))
        self.refuses(self.SCRIPT, self.BEFORE, self.AFTER[:2], alone.format("after"))
        self.assertEqual(
            self.run_tool([" \t\r", publish("p", "x")], [accepted(2)], [accepted(2)]), (0, "", ""))
        self.refuses([" \t\r", publish("p", "x")], [], [accepted(1)], "script:1: blank, and after "
                     "has an answer to it: it is the output of another script")

    def test_answers_that_the_command_cannot_have(self):
        other = "script:1: an output is of another script: "
        connect, leave = ('{"do":"%s","client":"a"}' % do for do in ("connect", "unsubscribe"))
        asks = '{"do":"subscribe","client":"a","filter":"x","qos":1}'
        for command, answer, why in (
                (publish("p", "x"), [copy(1, "a", "y"), accepted(1)],
                 "a copy of the topic 'y', which isn't the one that is published"),
                (publish("p", "x"), [accepted(1, 17)], "reason 17 for the command publish"),
                (connect, [accepted(1, 16)], "reason 16 for the command connect"),
                (asks, [accepted(1, 2)], "reason 2 for the command subscribe"),
                (asks, [copy(1, "b", "x"), accepted(1, 1)],
                 "a copy for 'b', where 'a' connects or subscribes"),
                (leave, [copy(1, "a", "x"), accepted(1, 17)], "a copy for the command unsubscribe"),
        ):
            self.refuses([command], answer, answer, other + why)
            self.refuses([command], [refused(1)], answer, other + why)
        for command, answer in (
                (publish("p", "x"), accepted(1, 16)), (leave, accepted(1, 17)),
                (asks, accepted(1, 1)), (connect, accepted(1)),
                ('{"do":"stat"}', '{"line":1,"nodes":1,"retained":1,"subscriptions":1}'),
                ("no json", refused(1, "BadJson"))):
            answers = [answer, accepted(2)]
            self.assertEqual(self.run_tool([command, connect], answers, answers), (0, "", ""))

    def test_files_that_are_no_outputs(self):
        with tempfile.TemporaryDirectory() as folder:
            for content, shown in (
                    (b"\x7fELF\x02\xff\x80" * 9000, "file: no output of mqroute: it is not UTF-8"),
                    (b"\x7fELF\x02\n" * 9000, "file:1: no answer of mqroute"),
                    (publish("p", "x").encode() + b"\n",
                     "file:1: no answer of mqroute: looks like a script"),
                    (b'{"line":1,"reason":0}\n{"line":2,"rea',
                     "file:2: cut short: no answer of mqroute"),
                    (b'{"line":1,"reason":0}',
                     "file:1: cut short: copies without a closing line, or a line without its end"),
                    (b'{"client":"a"', "file:1: cut short: copies without a closing line, or a "
                     "line without its end")):
                Path(folder, "file").write_bytes(content)
                Path(folder, "script").write_text(publish("p", "x") + "\n")
                done = subprocess.run([sys.executable, TOOL, "script", "file", "file"],
                                      capture_output=True, text=True, cwd=folder)
                self.assertEqual(
                    (done.returncode, done.stdout, done.stderr), (2, "", f"who_loses: {shown}\n"))

    @unittest.skipUnless(Path("/dev/full").exists(), "there is no /dev/full")
    def test_a_full_device(self):
        with tempfile.TemporaryDirectory() as folder, open("/dev/full", "wb") as full:
            for name, text in (
                    ("script", publish("p", "x")), ("before", accepted(1)), ("after", refused(1))):
                Path(folder, name).write_text(text + "\n")
            for words in ([], ["--json"]):
                done = subprocess.run([sys.executable, TOOL, *words, "script", "before", "after"],
                                      stdout=full, stderr=subprocess.PIPE, text=True, cwd=folder)
                self.assertEqual(
                    (done.returncode, done.stderr), (3, "who_loses: No space left on device\n"))

    def test_a_missing_file(self):
        done = subprocess.run([sys.executable, TOOL, "/nowhere", "/nowhere", "/nowhere"],
                              capture_output=True, text=True)
        self.assertEqual(done.returncode, 2)


if __name__ == "__main__":
    unittest.main()
