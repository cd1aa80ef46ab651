"""plan: shows what becomes of lists, scripts and subscriptions if topics get new names.

Whether a translation is exact is for `mqroute-acl compare --plan` to say.
Exit status: 0 nothing is to be looked at; 1 something is; 2 usage, or a plan, a list, a script or
another file.
"""
import argparse

from ..common.arguments import Parser, also_as
from ..common.exit_status import UsageFault
from ..common.files import keep_apart, refuse_stdin_twice
from ..common.messages import typed
from . import acl, check, compare, name, retained, script

RUN = {"check": check.run, "name": name.run, "acl": acl.run, "script": script.run,
       "retained": retained.run, "compare": compare.run}
EXAMPLES = {
    "check": "--script day.jsonl --acl-file old.acl plan",
    "name": "plan plant/hall-1/energy 'plant/+/energy'",
    "acl": "plan old.acl > new.acl",
    "script": "plan day.jsonl > new.jsonl",
    "retained": "plan day.jsonl > moving.jsonl",
    "compare": "plan day.jsonl tuesday.jsonl"}
PLAN = "the plan: lines FROM -> TO, keep FROM and none FROM"
DESCRIPTION = """Shows what becomes of lists, scripts and subscriptions if topics are renamed by a
plan. A plan has a rule on each line, and the first whose FROM matches a topic decides about it.
FROM -> TO: these topics get new names; a + of FROM may have a name, as in +hall, and TO may use it.
keep FROM: they keep their names. none FROM: they have no new name, since nobody uses them. A topic
that no FROM matches keeps its name, unless some TO matches it."""


def add_arguments(parser: Parser) -> None:
    parser.description = DESCRIPTION
    found = parser.add_subparsers(required=True, dest="command", metavar="COMMAND")
    add_check(found.add_parser("check", help="shows what is odd in a plan, and what becomes of a "
                               "script's topics and subscriptions and of a list's lines"))
    add_name(found.add_parser("name", help="shows what becomes of topics, filters and shared "
                              "subscriptions"))
    add_acl(found.add_parser("acl", help="writes an access list under the plan"))
    add_script(found.add_parser("script", help="writes a script under the plan"))
    add_retained(found.add_parser("retained", help="writes a script that moves what is retained "
                                  "under old names to the new ones"))
    add_compare(found.add_parser("compare", help="shows which clients of a script under new names "
                                 "don't subscribe to what they did in one under old names"))
    for word, command in found.choices.items():
        command.closing = (f"\nexample: {typed('plan')} {word} {EXAMPLES[word]}\n"
                           f"status: as `{typed('plan')} --help` has it\n")


def add_name(parser: argparse.ArgumentParser) -> None:
    parser.add_argument("plan", metavar="PLAN", help=PLAN)
    parser.add_argument("text", metavar="TEXT", nargs="+",
                        help="a topic, a filter or $share/NAME/FILTER")


def add_acl(parser: argparse.ArgumentParser) -> None:
    parser.add_argument("plan", metavar="PLAN", help=PLAN)
    parser.add_argument("list", metavar="LIST")
    parser.add_argument("--both", action="store_true",
                        help="keep the old lines too, while both names are in use")


def add_compare(parser: argparse.ArgumentParser) -> None:
    parser.add_argument("plan", metavar="PLAN", help=PLAN)
    parser.add_argument("old_script", metavar="OLD_SCRIPT")
    parser.add_argument("new_script", metavar="NEW_SCRIPT")


def add_check(parser: argparse.ArgumentParser) -> None:
    parser.add_argument("plan", metavar="PLAN", help=PLAN)
    parser.add_argument("--script", metavar="SCRIPT", help="a script under old names")
    parser.add_argument("--acl-file", metavar="FILE", help="an access list under old names")
    parser.add_argument("--new-acl-file", metavar="FILE", help="with --acl-file: the list that is "
                        "proposed in its place, under new names")
    parser.add_argument("--json", action="store_true", help="a JSON object on each line")


def add_script(parser: argparse.ArgumentParser) -> None:
    parser.add_argument("plan", metavar="PLAN", help=PLAN)
    parser.add_argument("script", metavar="SCRIPT")
    also_as(parser, "--old", parser.add_argument(
        "--write-old", metavar="FILE", help="write the old script too, with a blank line for each "
        "line that the new one has more"))
    parser.add_argument("--moved", metavar="FILE", help="only these clients use the new names; "
                        "FILE has a client id on each line, in which * stands for any text")
    parser.add_argument("--bridge", metavar="ID[:USER]", help="with --moved: the client id and the "
                        "user name of the bridge that carries messages over (plan-bridge, none)")
    parser.add_argument("--no-bridge", action="store_true",
                        help="with --moved: nothing carries messages over")
    parser.add_argument("--acl-file", metavar="FILE", help="with --moved: the list under which the "
                        "bridge is sent messages")


def add_retained(parser: argparse.ArgumentParser) -> None:
    parser.add_argument("plan", metavar="PLAN", help=PLAN)
    parser.add_argument("script", metavar="SCRIPT",
                        help="a script under old names; what is retained at its end")
    parser.add_argument("--both", action="store_true",
                        help="keep what is retained under old names too, while both are in use")
    also_as(parser, "--client", parser.add_argument(
        "--mover", metavar="ID[:USER]", help="the client id and the user name of the client that "
        "publishes (plan-mover, none)"))
    parser.add_argument("--acl-file", metavar="FILE", help="the list under which the script runs")


def look_at_files(options: argparse.Namespace) -> None:
    """Refuses options that don't go together, and a file that is read and written."""
    named = vars(options)
    if options.command == "script":
        if options.moved is None and (options.bridge is not None or options.no_bridge
                                      or options.acl_file is not None):
            raise UsageFault("--bridge, --no-bridge and --acl-file need --moved")
        if options.no_bridge and (options.bridge is not None or options.acl_file is not None):
            raise UsageFault("--bridge and --acl-file can't be used with --no-bridge")
    if named.get("new_acl_file") is not None and options.acl_file is None:
        raise UsageFault("--new-acl-file needs --acl-file")
    read = [named.get(name) for name in
            ("plan", "list", "script", "acl_file", "new_acl_file", "moved", "old_script",
             "new_script")]
    refuse_stdin_twice(read)
    keep_apart(read, {"--write-old": named.get("write_old")})


def run(options: argparse.Namespace) -> int:
    look_at_files(options)
    return RUN[options.command](options)
