"""preview: shows what a proposed access list would change: who loses, who gains, what is newly
allowed and no longer allowed to anybody, and which subscriptions can receive nothing any more.
With a plan the clients move to new topics too.

It decides nothing itself: mqroute runs the script under both lists, mqroute-acl answers about the
lists, and what differs is found as by who-loses.
Before that it looks whether the current list was the one in force when the logs were written: under
it mqroute has to send the copies that the logs have.
Exit status: 0 nothing changes; 1 something does; 2 usage, a list with a line that mosquitto
doesn't take, logs that another list explains or none, or a file or a program failed.
"""
import argparse
import os
import sys
from pathlib import Path
from typing import TYPE_CHECKING

from ..common.arguments import also_as
from ..common.exit_status import FAILED, UsageFault
from ..common.files import keep_apart, refuse_stdin_twice
from ..common.option_values import port, whole_number
from ..common.terminal import standard_output
from ..common.texts import json_text
from ..log.options import add_log_options
from ..script.rules import MOSQUITTO, RULES
from . import kept_folder
from .outputs import add_outputs, compare_outputs, refuse_mixed

if TYPE_CHECKING:
    from .in_force import NoAnswer
    from .not_taken import NotTaken

MOST = 4_294_967_295


def add_arguments(parser: argparse.ArgumentParser) -> None:
    parser.description = ("Shows what a proposed access list would change, tried on a log or a "
                          "script.")
    parser.add_argument("current", metavar="OLD", help="the access list that is in force, or -: "
                        "standard input. With --conf it is left out")
    parser.add_argument("proposed", metavar="NEW", nargs="?", help="the list in its place")
    parser.add_argument("source", nargs="*", metavar="LOG_OR_SCRIPT",
                        help="a script for mqroute, or mosquitto logs that follow one another. "
                        "With --conf logs, or those that it names")
    parser.add_argument("--conf", metavar="FILE", help="a mosquitto.conf, which says what is in "
                        "force: lists, listeners, the log and more")
    parser.add_argument("--port", type=port, metavar="PORT", help="with --conf: the listener whose "
                        "list NEW replaces, where they have different ones")
    parser.add_argument("--rules", choices=RULES, default=MOSQUITTO,
                        help="by whose rules lists are read, and decide (mosquitto)")
    parser.add_argument("--plan", metavar="PLAN", help="topics are renamed by this plan, and "
                        "the proposed list has new names")
    parser.add_argument("--html", metavar="FILE", help="write a page, too")
    parser.add_argument("--title", metavar="TEXT", help="of the page")
    parser.add_argument("--json", action="store_true", help="one JSON object in place of the text")
    parser.add_argument("--no-check", action="store_true", help="don't look whether OLD was "
                        "the list in force when the logs were written")
    also_as(parser, "--keep", parser.add_argument(
        "--save", metavar="FOLDER", help="leave the script of a log and both outputs there"))
    for name in ("--max-retained", "--max-queued"):
        parser.add_argument(name, type=whole_number(0, MOST), metavar="N", help="as for mqroute")
    add_log_options(parser)
    add_outputs(parser)


def check(options: argparse.Namespace) -> None:
    """Refuses arguments that don't go together, and a file that is read and written. What a
    configuration says is put in their place."""
    options.by_conf = None
    if options.conf is not None:
        from .by_conf import prepare  # takes time to load
        options.by_conf = prepare(options)
    elif options.port is not None:
        raise UsageFault("--port needs --conf")
    elif not options.source:
        raise UsageFault("needs OLD, NEW, and a script or logs; or --conf and NEW")
    if options.plan is not None and options.rules == MOSQUITTO:
        raise UsageFault("--plan goes by mqroute's own rules alone: give --rules own")
    if options.title is not None and options.html is None:
        raise UsageFault("--title needs --html")
    read = [options.current, options.proposed, *options.source, options.begin, options.plan,
            options.conf]
    refuse_stdin_twice(read)
    keep_apart(read, {"--html": options.html})
    names = kept_folder.NAMES if options.plan is None else kept_folder.ALL_NAMES
    if options.save is not None:
        kept_folder.refuse_to_overwrite(options.save, names)
    if None not in (options.html, options.save):
        if os.path.realpath(options.html) in (
                os.path.realpath(Path(options.save, name)) for name in names):
            raise UsageFault("--html names a file that --save writes")


def run(options: argparse.Namespace) -> int:
    refuse_mixed(options)
    if options.outputs is not None:
        return compare_outputs(options)
    check(options)
    from .in_force import NoAnswer  # takes time to load, as does what comes after
    from .not_taken import ListsNotTaken
    try:
        return shown(options)
    except ListsNotTaken as fault:
        say_not_taken(options, fault.lines)
        raise
    except NoAnswer as fault:
        say_no_answer(options, fault)
        return FAILED


def say_not_taken(options: argparse.Namespace, lines: list["NotTaken"]) -> None:
    from . import html_page, not_taken
    if options.html is not None:
        not_taken.write_page(options.html, lines, html_page.title_of(options))
    if options.json:
        write(json_text(not_taken.as_object(options.current, options.proposed, lines), indent=1)
              + "\n")
    else:
        write(not_taken.as_text(lines))


def say_no_answer(options: argparse.Namespace, fault: "NoAnswer") -> None:
    from . import html_page, no_answer_page
    check, lines = fault.check, fault.lines()
    if options.html is not None:
        no_answer_page.write(options.html, fault, html_page.title_of(options))
    if options.json:
        found = {"current": options.current, "proposed": options.proposed,
                 "in_force": check.json(), "conf": options.by_conf and options.by_conf.json(),
                 "said": fault.said, "summary": check.in_words()}
        write(json_text(found, indent=1) + "\n")
    else:
        write("".join(line + "\n" for line in lines))


def write(text: str) -> None:
    sys.stdout.buffer.write(text.encode("utf-8", "backslashreplace"))
    sys.stdout.buffer.flush()


def shown(options: argparse.Namespace) -> int:
    from . import gathering, html_page, text_report, words
    with kept_folder.work_folder(options.save) as folder:
        found = gathering.preview_of(options, folder)
        if options.html is not None:
            html_page.write(options.html, found, html_page.title_of(options))
        if options.save is not None:
            kept_folder.keep(folder, options.save)
    if options.json:
        text = json_text(found.json(words.summary(found)), indent=1) + "\n"
    else:
        text = text_report.report(found, standard_output())
    write(text)
    return 1 if found.changes() else 0
