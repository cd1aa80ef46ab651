"""mqr: its table of questions, and that each subcommand answers as the command that it stands
for."""
import io
import os
import re
import signal
import subprocess
import sys
import tempfile
import unittest
from pathlib import Path

from test_command_line import help_behind_name
from test_files import AFTER, BEFORE, LOG, SCRIPT
from worked import HERE, TOP
from mqroute_tools import questions
from mqroute_tools.cli import SUBCOMMANDS
from mqroute_tools.common.messages import FOLDED
from mqroute_tools.plain.reader import Reader

# In a program's place: what it is called with, and whether SIGPIPE ends it as behind a shell.
STAND_IN = """#!/bin/sh
if [ "$*" = "why --help" ]; then
    echo "Usage: mqroute-acl why [OPTIONS] <FILE>; mqroute-acl compare a b; mqroute-acl's rules"
    exit 0
fi
printf '%s\\n' "$@"
grep '^SigIgn' /proc/$$/status >&2
exit 5
"""


class Case(unittest.TestCase):
    def setUp(self) -> None:
        folder = tempfile.TemporaryDirectory()
        self.addCleanup(folder.cleanup)
        self.folder = Path(folder.name)
        self.program = self.folder / "program"
        for name, text in (("script", SCRIPT), ("old.out", BEFORE), ("new.out", AFTER),
                           ("log", LOG.format(1795358535, 1795358536)), ("program", STAND_IN)):
            (self.folder / name).write_text(text, encoding="utf-8")
        self.program.chmod(0o755)

    def run_mqr(self, *words: str, tool: str = "mqr", **more) -> subprocess.CompletedProcess:
        around = os.environ | {"MQROUTE": str(self.program), "COLUMNS": "80",
                               "MQROUTE_ACL_PROGRAM": str(self.program)}
        return subprocess.run([sys.executable, HERE / f"{tool}.py", *words], cwd=self.folder,
                              env=around, capture_output=True, text=True, **more)


class Table(Case):
    def test_help(self):
        shown = self.run_mqr("help")
        self.assertEqual((shown.returncode, shown.stderr), (0, ""))
        for words in (["--help"], ["-h"], ["help", "help"]):
            self.assertEqual(self.run_mqr(*words).stdout, shown.stdout)
        alone = self.run_mqr()
        self.assertEqual((alone.returncode, alone.stdout, alone.stderr), (2, "", shown.stdout))

    def test_rows(self):
        """Each subcommand answers some question, on lines that a terminal has room for."""
        asked = {question.typed.split()[0] for rows in questions.QUESTIONS.values()
                 for question in rows}
        self.assertEqual(asked, {*questions.PASSED_ON, *questions.TOOLS})
        self.assertLessEqual({*questions.TOOLS, *FOLDED} - {*SUBCOMMANDS}, {
            "acl compare", "acl lint", "acl why"})
        for line in questions.table().splitlines():
            self.assertLessEqual(len(line), 80, line)

    def test_pages(self):
        """The manual pages have what is typed."""
        for page, before in (("mqr.1", ".TP"), ("mqroute.7", "mqr")):
            text = (TOP / "docs" / page).read_text("utf-8").replace("\\-", "-")
            text = " ".join(re.sub(r'^\.\w+ |["]', "", text, flags=re.M).split())
            for name in (*questions.PASSED_ON, *questions.TOOLS, "preview --outputs",
                         "replay --log"):
                with self.subTest(page, name=name):
                    self.assertIn(f"{before} {name} ", text)


class PassedOn(Case):
    def test_what_a_program_gets(self):
        for words, wanted in ((["compare", "a b", "--json"], ["compare", "a b", "--json"]),
                              (["may", "list", "c", "t"], ["why", "list", "c", "t"]),
                              (["run", "--acl-file", "x"], ["--acl-file", "x"]),
                              (["who", "--", "-", "-h"], ["who", "--", "-", "-h"])):
            done = self.run_mqr(*words)
            self.assertEqual((done.returncode, done.stdout.splitlines()), (5, wanted))
            ignored = int(done.stderr.split()[1], 16)
            self.assertFalse(ignored >> (signal.SIGPIPE - 1) & 1)

    def test_its_help(self):
        """By the name that is typed."""
        wanted = "Usage: mqr may [OPTIONS] <FILE>; mqr compare a b; mqroute-acl's rules\n"
        for words in (["may", "--help"], ["help", "may"], ["may", "-h"]):
            done = self.run_mqr(*words)
            self.assertEqual((done.returncode, done.stdout, done.stderr), (0, wanted, ""))

    def test_no_program(self):
        self.program.unlink()
        for words in (["lint", "x"], ["lint", "--help"]):
            done = self.run_mqr(*words)
            said = f"mqr: cannot run {self.program}: No such file or directory\n"
            self.assertEqual((done.returncode, done.stdout, done.stderr), (2, "", said))


class Tools(Case):
    def test_help(self):
        for name in questions.TOOLS:
            with self.subTest(name):
                shown = help_behind_name([HERE / "mqr.py", name], f"mqr {name}")
                alone = help_behind_name([HERE / f"{name.replace('-', '_')}.py"],
                                         f"{name.replace('-', '_')}.py")
                self.assertEqual(shown.replace(f"mqr {name}", f"mqroute-{name}"), alone)
                self.assertIn(f"example: mqr {name} ", shown)
        shown = self.run_mqr("help", "plan", "acl").stdout
        self.assertIn("example: mqr plan acl plan old.acl > new.acl\n"
                      "status: as `mqr plan --help` has it\n", shown)

    def test_names(self):
        """What is said, and what it says to type, has the name that was typed."""
        done = self.run_mqr("check", "log")
        self.assertEqual((done.returncode, done.stdout), (2, ""))
        self.assertRegex(done.stderr, r"\Amqr check: log: .*: see mqr log-to-script \(.*\n\Z")
        self.assertEqual(self.run_mqr("why", "--version").stdout.split()[:2], ["mqr", "why"])
        self.assertRegex(self.run_mqr("--version").stdout,
                         r"\Amqr \S+\nmqroute:? .*\nmqroute-acl:? .*\n\Z")

    def test_no_such_subcommand(self):
        for words, said in ((["prevew"], "there is no mqr prevew (preview?): mqr help shows what "
                             "there is"),
                            (["help", "fly"], "there is no mqr fly: mqr help shows what there is"),
                            (["who-loses", "x"], "there is no mqr who-loses: see mqr preview "
                             "--outputs"),
                            (["compare-log"], "there is no mqr compare-log: see mqr replay --log")):
            done = self.run_mqr(*words)
            self.assertEqual((done.returncode, done.stdout, done.stderr), (2, "", f"mqr: {said}\n"))


class Folded(Case):
    def same(self, old: list[str], *words: str, status: int) -> None:
        tool, *given = old
        wanted, done = self.run_mqr(*given, tool=tool), self.run_mqr(*words)
        self.assertEqual((wanted.returncode, wanted.stdout), (status, done.stdout))
        self.assertEqual((done.returncode, done.stderr),
                         (status, wanted.stderr.replace(f"{tool}:", f"mqr {words[0]}:")))

    def test_two_outputs(self):
        outputs = ["--outputs", "old.out", "new.out"]
        for options in ([], ["--by", "user"], ["--json"], ["--depth", "1", "--why"]):
            self.same(["who_loses", *options, "script", "old.out", "new.out"],
                      "preview", *options, *outputs, "script", status=1)
        self.same(["who_loses", "script", "old.out", "old.out"],
                  "preview", "--outputs", "old.out", "old.out", "script", status=0)
        self.same(["who_loses", "script", "log", "old.out"],
                  "preview", "script", "--outputs", "log", "old.out", status=2)

    def test_a_log(self):
        output = "".join(f'{{"line":{number},"reason":0}}\n' for number in (1, 2, 3))
        (self.folder / "output").write_text(output)
        for options in ([], ["--no-inference"]):
            self.same(["compare_log", *options, "log", "output"],
                      "replay", *options, "--log", "log", "output", status=0)
        self.same(["compare_log", "log", "script"], "replay", "script", "--log", "log", status=2)

    def test_a_log_that_differs(self):
        log = str(TOP / "brokers/recorded/plain.log")
        made = self.run_mqr("log-to-script", log).stdout
        output = b"".join(Reader(None, None, None, "own").answers(io.BytesIO(made.encode())))
        (self.folder / "output").write_bytes(output)
        self.same(["compare_log", log, "output"], "replay", "--log", log, "output", status=1)

    def test_what_does_not_go_together(self):
        for words, said in (
                (["preview", "--depth", "1", "a", "b", "c"], "--depth needs --outputs"),
                (["preview", "--outputs", "a", "b", "c", "--save", "d"],
                 "--save can't be used with --outputs"),
                (["preview", "--outputs", "a", "b", "c", "d"], "--outputs needs SCRIPT alone"),
                (["replay", "--begin", "x", "a", "b"], "--begin needs --log"),
                (["replay", "--session-expiry", "0", "a", "b"], "--session-expiry needs --log"),
                (["replay", "--log", "x", "--port", "1", "a"], "--port can't be used with --log"),
                (["replay", "--log", "x", "--all", "c"], "--all can't be used with --log"),
                (["replay", "--log", "x", "a", "b"], "--log needs OUTPUT alone"),
                (["replay", "--log", "x"], "--log needs OUTPUT alone")):
            done = self.run_mqr(*words)
            self.assertEqual((done.returncode, done.stdout, done.stderr.splitlines()[-1]),
                             (2, "", f"mqr {words[0]}: error: {said}"))


if __name__ == "__main__":
    unittest.main()
