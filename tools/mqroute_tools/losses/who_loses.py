"""who-loses: shows who loses (and who gains) what between two outputs of mqroute for one script.

Exit status: 0 nothing changes; 1 something does; 2 usage, a file, or outputs that aren't of this
script.
"""
import argparse
import sys

from ..common.arguments import also_as
from ..common.exit_status import UsageFault
from ..common.files import STDIN, keep_apart, refuse_stdin_twice
from ..common.option_values import whole_number
from ..common.texts import json_text
from ..plan.topic_plan import read_plan
from ..script.access_list import AccessList
from ..script.rules import MOSQUITTO, RULES
from . import html_page
from .acl_verdicts import Lists
from .by_plan import ByPlan
from .comparison import Losses, compare, findings
from .findings import Findings
from .report_rows import Reasons
from .text_report import report


def add_arguments(parser: argparse.ArgumentParser) -> None:
    parser.description = "Shows who loses what between two outputs of mqroute for one script."
    parser.add_argument("script", metavar="SCRIPT")
    parser.add_argument("old_output", metavar="OLD_OUTPUT")
    parser.add_argument("new_output", metavar="NEW_OUTPUT")
    add_outputs_options(parser)
    parser.add_argument("--rules", choices=RULES, default=MOSQUITTO,
                        help="by whose rules both runs decided (mosquitto)")
    parser.add_argument("--json", action="store_true", help="JSON, also where nothing changes")
    parser.add_argument("--plan", metavar="PLAN", help="with --new-script: topics are renamed by "
                        "this plan, and NEW_OUTPUT is of the new script")
    parser.add_argument(
        "--html", metavar="FILE", help="write a page with causes and script lines, too")


def add_outputs_options(parser: argparse._ActionsContainer) -> None:
    """Those of two outputs alone."""
    parser.add_argument("--depth", type=whole_number(1), metavar="N",
                        help="gather topics by their first N levels")
    parser.add_argument("--by", choices=["client", "user"],
                        help="rows by client (default), or by user with causes (default with "
                        "--html)")
    parser.add_argument("--why", action="store_true", help="the causes by client, too")
    old = parser.add_argument("--old-acl-file", metavar="FILE",
                              help="with --new-acl-file: the lines of both lists that decide, with "
                              "the causes")
    new = parser.add_argument("--new-acl-file", metavar="FILE", help="the list of the new output")
    script = parser.add_argument("--new-script", metavar="SCRIPT",
                                 help="the script under new names; it and SCRIPT are those that "
                                 "plan script --write-old writes")
    for spelling, option in (("--acl-before", old), ("--acl-after", new), ("--new", script)):
        also_as(parser, spelling, option)


def check(options: argparse.Namespace) -> None:
    """Refuses arguments that don't go together, and a file that is read and written."""
    if (options.old_acl_file is None) != (options.new_acl_file is None):
        raise UsageFault("--old-acl-file and --new-acl-file go together")
    check_plan(options)
    read = [options.script, options.old_output, options.new_output, options.old_acl_file,
            options.new_acl_file, options.plan, options.new_script]
    refuse_stdin_twice(read)
    if options.script == STDIN and options.html is not None:
        raise UsageFault("--html reads the script twice: give it as a file")
    keep_apart(read, {"--html": options.html})


def check_plan(options: argparse.Namespace) -> None:
    if (options.plan is None) != (options.new_script is None):
        raise UsageFault("--plan and --new-script go together")
    for name, value in (("--by", options.by), ("--why", options.why), ("--html", options.html),
                        ("--old-acl-file", options.old_acl_file)):
        if options.plan is not None and value:
            raise UsageFault(f"{name} can't be used with --plan")


def run(options: argparse.Namespace) -> int:
    check(options)
    if options.plan is not None:
        return say(options, through_plan(options))
    by_user = options.by == "user" or (options.html is not None and options.by is None)
    losses = Losses(options.depth)
    lists = None
    if options.old_acl_file is not None:
        lists = Lists(*(AccessList(name, options.rules)
                        for name in (options.old_acl_file, options.new_acl_file)))
    if by_user or options.why or options.html is not None or lists:
        losses.reasons = Reasons(by_user, losses.gathered, lists)
    outputs = options.old_output, options.new_output
    compare(losses, options.script, *outputs)
    found = findings(losses)
    if lists:
        lists.refuse()
    if options.html is not None:
        html_page.write(options.html, found, options.script, *outputs)
    return say(options, found)


def through_plan(options: argparse.Namespace) -> Findings:
    """Under old and new names."""
    losses = Losses(options.depth)
    compared = ByPlan(losses, read_plan(options.plan), (options.script, options.new_script),
                      (options.old_output, options.new_output))
    compared.compare()
    found = findings(losses)
    found.totals.turns = compared.turns
    return found


def say(options: argparse.Namespace, found: Findings) -> int:
    if options.json:
        text = json_text(found.json(), indent=1) + "\n"
    else:
        text = report(found)
    sys.stdout.buffer.write(text.encode())
    return 1 if found.copies or found.refused else 0
