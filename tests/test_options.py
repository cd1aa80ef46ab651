"""One name for one thing: concepts.tsv has each option of the helps of all commands once, with what
it is and what it takes. The helps of the programs are read in their sources."""
import csv
import importlib
import os
import pathlib
import re
import sys
import unittest
import unittest.mock

TOP = pathlib.Path(__file__).resolve().parent.parent
sys.path.insert(0, str(TOP / "tools"))
from mqroute_tools import cli, questions  # noqa: E402
from mqroute_tools.common.arguments import Parser  # noqa: E402

OPTION = re.compile(r"^  (?:-h, )?(--[a-z-]+)(?: (\S.*?))?(?:  .*)?$", re.M)
ARGUMENT = re.compile(r'Argument\(\s*"([a-z-]+)",\s*ArgumentKind::(\w+)'
                      r'(?:\("([A-Z]+)"(?:, "[a-z-]+")?\))?')
# What stands for the positional arguments of all commands.
POSITIONALS = {
    "OLD", "NEW", "LIST", "EXPECTED", "CLIENT", "TOPIC", "FILTER", "SCRIPT", "LINE", "LOG",
    "LOG_OR_SCRIPT", "OUTPUT", "OLD_OUTPUT", "NEW_OUTPUT", "PLAN", "TEXT", "OLD_SCRIPT",
    "NEW_SCRIPT"}


def parsers_of(name, parser):
    """A parser, and those of its commands."""
    yield name, parser
    for action in parser._subparsers._group_actions if parser._subparsers else ():
        for word, command in action.choices.items():
            yield from parsers_of(f"{name} {word}", command)


def parsers():
    """Of each tool and of each of its commands."""
    for name, entry in cli.SUBCOMMANDS.items():
        parser = Parser(prog=name)
        importlib.import_module(f"mqroute_tools.{entry.module}").add_arguments(parser)
        parser.add_version()
        yield from parsers_of(name, parser)


def helps_of_tools():
    """Each command with its help, on a terminal that is wide."""
    with unittest.mock.patch.dict(os.environ, {"COLUMNS": "200"}):
        yield "mqr", questions.table()
        yield "mqroute-tools", cli.of_all().format_help()
        for name, parser in parsers():
            yield name, parser.format_help()


def options_of_programs():
    """A program, an option, and what it takes."""
    for program, crate in (("mqroute", "mq_cli"), ("mqroute-acl", "mq_acl_args")):
        source = (TOP / "crates" / crate / "src/command_line.rt").read_text("utf-8")
        for name, kind, takes in ARGUMENT.findall(source):
            if kind in ("Option", "Renamed", "Number", "Flag"):
                option, takes = f"--{name}", "N" if kind == "Number" else takes
                yield program, option, takes


def options():
    """A command, an option that its help has, and what it takes."""
    for command, text in helps_of_tools():
        for option, takes in OPTION.findall(text):
            yield command, option, takes
    yield from options_of_programs()


def table():
    with open(TOP / "tests/concepts.tsv", encoding="utf-8", newline="") as stream:
        return list(csv.DictReader(stream, delimiter="\t", quoting=csv.QUOTE_NONE))


class Options(unittest.TestCase):
    def test_table(self):
        """No concept has two options, and no option two concepts."""
        rows = table()
        for column in ("concept", "option"):
            names = [row[column] for row in rows]
            self.assertEqual(sorted(names), sorted(set(names)))

    def test_each_option_is_in_it(self):
        takes = {row["option"]: row["takes"].split("|") for row in table()}
        seen = set()
        for command, option, given in options():
            with self.subTest(command, option=option):
                self.assertIn(option, takes)
                self.assertIn(given, takes[option])
            seen.add(option)
        self.assertEqual(set(takes) - seen, set())

    def test_positionals(self):
        for name, parser in parsers():
            for action in parser._actions:
                if not action.option_strings and action.dest != "command":
                    with self.subTest(name, action=action.dest):
                        self.assertIn(action.metavar, POSITIONALS)


class OldSpellings(unittest.TestCase):
    """They are taken, and no help has them. Of the programs tests/acl/who.rows has the one."""
    KEPT = {"who-loses": {"--acl-before": "--old-acl-file", "--acl-after": "--new-acl-file",
                          "--new": "--new-script"},
            "preview": {"--keep": "--save"}, "replay": {"--username": "--user"},
            "search": {"--username": "--user", "--scripts": "--count", "--only": "--number"},
            "plan script": {"--old": "--write-old"}, "plan retained": {"--client": "--mover"}}
    POSITIONALS = {"who-loses": 3, "preview": 3, "replay": 2, "search": 0, "plan script": 2,
                   "plan retained": 2}

    def test_they_are_the_same(self):
        commands = dict(parsers())
        for name, spellings in self.KEPT.items():
            given = ["x"] * self.POSITIONALS[name]
            for old, option in spellings.items():
                with self.subTest(name, old=old):
                    parser = commands[name]
                    self.assertNotIn(f"{old} ", parser.format_help())
                    was, now = (vars(parser.parse_intermixed_args([word, "7", *given]))
                                for word in (old, option))
                    self.assertEqual(was, now)
                    self.assertNotEqual(was, vars(parser.parse_intermixed_args(given)))


if __name__ == "__main__":
    unittest.main()
