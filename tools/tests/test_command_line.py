"""The command line: each subcommand under its own name and under that of all."""
import importlib
import os
import re
import shlex
import subprocess
import sys
import tempfile
import unittest
from pathlib import Path

from worked import HERE, TOP
from mqroute_tools import questions
from mqroute_tools.cli import SUBCOMMANDS
from mqroute_tools.common.arguments import Parser
from mqroute_tools.common.messages import FOLDED
from mqroute_tools.plan import plan

ALL = [sys.executable, "-m", "mqroute_tools"]


def said(words: list[str | Path]) -> subprocess.CompletedProcess:
    """Where `mqroute_tools` can be imported, on a terminal of 80 columns."""
    around = os.environ | {"PYTHONPATH": str(HERE), "COLUMNS": "80"}
    return subprocess.run(words, capture_output=True, text=True, env=around)


def help_behind_name(words: list[str | Path], name: str) -> str:
    """What --help shows, from behind the name on. Where its lines break depends on that."""
    done = said([*words, "--help"])
    assert (done.returncode, done.stderr) == (0, ""), done
    head, rest = f"usage: {name} ", done.stdout
    assert rest.startswith(head), rest
    return " ".join(rest.removeprefix(head).split())


class Names(unittest.TestCase):
    def test_the_same_help(self):
        with tempfile.TemporaryDirectory() as folder:
            for name in SUBCOMMANDS:
                script = HERE / f"{name.replace('-', '_')}.py"
                link = Path(folder, f"mqroute-{name}")
                link.symlink_to(script)
                wanted = help_behind_name([*ALL, name], f"mqroute-tools {name}")
                self.assertGreater(len(wanted), 100)
                for way in (script, link):
                    with self.subTest(way=way):
                        self.assertEqual(help_behind_name([way], way.name), wanted)

    def test_the_list(self):
        """A line for each subcommand; also where the file of all is called by its path."""
        done = said([*ALL, "--help"])
        lines = re.findall(r"^  ([\w-]+)  +\w.*$", done.stdout.split("subcommands:\n")[1], re.M)
        self.assertEqual((lines, done.returncode), ([*SUBCOMMANDS], 0))
        self.assertEqual(said([HERE / "tools.py", "--help"]).stdout, done.stdout)

    def test_help(self):
        """`help check` is `check --help`, and `help` alone the list."""
        for words, same in ((["help"], ["--help"]), (["help", "check"], ["check", "--help"]),
                            (["help", "plan", "acl"], ["plan", "acl", "--help"]),
                            (["help", "help"], ["--help"])):
            done = said([*ALL, *words])
            self.assertEqual((done.returncode, done.stderr), (0, ""))
            self.assertEqual(done.stdout, said([*ALL, *same]).stdout)

    def test_end_of_the_help(self):
        """An example that the tool takes, and its statuses as docs/reference/statuses.md has
        them."""
        page = (TOP / "docs/reference/statuses.md").read_text("utf-8")
        rows = dict(re.findall(r"^\| `mqr ([\w -]+)` \| (.*) \|$", page, re.M))
        for name, entry in SUBCOMMANDS.items():
            with self.subTest(name):
                *_, example, statuses = said([*ALL, name, "--help"]).stdout.splitlines()
                self.assertEqual(example, f"example: mqroute-{name} {entry.example}")
                nothing, something = (re.split(r"[.:] ", cell)[0]
                                      for cell in rows[FOLDED.get(name, name)].split(" | "))
                self.assertEqual(
                    statuses,
                    f"status: 0 {nothing}; 1 {something}; 2 misuse or no answer; 3 a fault of the "
                    "machine")
                parser = Parser()
                module = importlib.import_module(f"mqroute_tools.{entry.module}")
                module.add_arguments(parser)
                words = entry.example.partition(" > ")[0].split()
                self.assertTrue(vars(parser.parse_args(words)))
        self.assertLessEqual({*questions.PASSED_ON, *questions.TOOLS}, {*rows})
        self.assertEqual(said([*ALL, "--help"]).stdout.splitlines()[-2:], [
            "example: mqroute-tools check day.jsonl",
            "status: as the subcommand; 2 if there is none of this name"])

    def test_end_of_the_help_of_a_plan(self):
        """Each of its commands has an example, which it takes."""
        parser = Parser()
        plan.add_arguments(parser)
        self.assertEqual([*plan.EXAMPLES], [*plan.RUN])
        for name, given in plan.EXAMPLES.items():
            with self.subTest(name):
                *_, example, statuses = said([*ALL, "plan", name, "--help"]).stdout.splitlines()
                self.assertEqual(example, f"example: mqroute-plan {name} {given}")
                self.assertEqual(statuses, "status: as `mqroute-plan --help` has it")
                words = shlex.split(given.partition(" > ")[0])
                self.assertEqual(parser.parse_args([name, *words]).plan, "plan")

    def test_no_such_subcommand(self):
        for words, shown in ((["fly"], "invalid choice: 'fly'"), ([], "required: SUBCOMMAND\n"),
                             (["help", "fly"], "invalid choice: 'fly'"),
                             (["--fly", "check"], "unrecognized arguments: --fly")):
            done = said([*ALL, *words])
            self.assertEqual((done.returncode, done.stdout), (2, ""))
            self.assertIn(shown, done.stderr)

    def test_what_it_says(self):
        nowhere = "check: /nowhere: No such file or directory\n"
        for words, shown in ((["check", "/nowhere"], nowhere),
                             (["who-loses", "-", "-", "x"],
                              "who-loses: error: standard input can be read once\n")):
            done = said([*ALL, *words])
            self.assertEqual(done.returncode, 2)
            self.assertTrue(done.stderr.endswith(f"mqroute-tools {shown}"), done.stderr)


if __name__ == "__main__":
    unittest.main()
