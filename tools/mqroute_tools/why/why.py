"""why: shows why a client was sent the message of a publish in a script, or wasn't.

Of each client the first cause that holds is shown, by the order of the definitions. What is shown
is what mqroute does: it runs on the script, and where it writes something else than is reckoned
here nothing is shown.
Exit status: 0 the client was sent it, or no client was given; 1 it wasn't; 2 usage, a file, or
what is reckoned here isn't what mqroute wrote.
"""
import argparse
import sys

from ..common.exit_status import UsageFault
from ..common.files import at, keep_apart, refuse_stdin_twice
from ..common.option_values import whole_number
from ..common.texts import json_text
from ..conf.limits import only_list
from ..log.options import (
    NAMES, add_conf_option, add_log_options, given_options, logs_by_conf)
from ..script.access_list import AccessList
from ..script.conf_file import read_conf_file
from ..script.rules import MOSQUITTO, RULES
from .answering import answered
from .causes import Answer, as_object, lines_of
from .lines import Question, read_script
from .report import report

MOST = 4_294_967_295
OF_LOG = ("topic", "at", *NAMES)


def add_arguments(parser: argparse.ArgumentParser) -> None:
    parser.description = "Shows why a client was sent the message of a publish, or wasn't."
    parser.add_argument("script", metavar="SCRIPT", nargs="?",
                        help="for mqroute, or -: standard input")
    parser.add_argument("line", metavar="LINE", nargs="?", type=whole_number(1),
                        help="of a publish in the script")
    parser.add_argument("client", metavar="CLIENT", nargs="?",
                        help="without it, each that has connected by then")
    parser.add_argument("--client", metavar="CLIENT", dest="named", help="the same")
    parser.add_argument("--acl-file", metavar="FILE", help="as for mqroute")
    parser.add_argument("--rules", choices=RULES, default=MOSQUITTO,
                        help="by whose rules lists are read, and decide (mosquitto)")
    for name in ("--max-retained", "--max-queued"):
        parser.add_argument(name, type=whole_number(0, MOST), metavar="N")
    parser.add_argument("--json", action="store_true", help="a JSON object on each line")
    parser.add_argument("--log", action="append", metavar="LOG",
                        help="a log in place of SCRIPT and LINE; the options behind it go with it")
    parser.add_argument("--topic", metavar="TOPIC", help="that was published")
    parser.add_argument("--at", metavar="TIME", help="when that was, as it stands in the log")
    add_conf_option(parser, "the list, the log and the form of its times")
    add_log_options(parser)


def take_conf(options: argparse.Namespace) -> None:
    """What it says, in place of options that aren't given."""
    conf = read_conf_file(options.conf)
    options.log = logs_by_conf(options, conf, options.log or [])
    if options.acl_file is None:
        options.acl_file = only_list(conf)
    if options.max_queued is None:
        options.max_queued = conf.max_queued()


def look_at_options(options: argparse.Namespace) -> None:
    if options.client is not None and options.named is not None:
        raise UsageFault("--client can't be used with CLIENT")
    if options.conf is not None:
        take_conf(options)
    if options.log:
        if options.script is not None:
            raise UsageFault("--log can't be used with SCRIPT and LINE")
        if options.topic is None or options.at is None:
            raise UsageFault("--log needs --topic and --at")
    elif options.line is None:
        raise UsageFault("needs SCRIPT and LINE, or --log")
    else:
        for name in given_options(options, OF_LOG):
            raise UsageFault(f"{name} needs --log")
    files = [options.script, options.acl_file, options.begin, *(options.log or ())]
    refuse_stdin_twice(files)
    keep_apart(files)


def questions(options: argparse.Namespace) -> list[Question]:
    if options.log:
        from . import from_log  # takes time to load
        return from_log.questions(options)
    client = options.named if options.client is None else options.client
    place = at(options.script, options.line)
    return [Question(read_script(options.script), options.line, client, place)]


def as_lines(asked: Question, answers: list[Answer]) -> str:
    script, topic = asked.script, asked.publish["topic"]
    objects = []
    for answer in answers:
        for cause in answer.causes:
            one = as_object(answer.client, asked.line, topic, cause, script.called)
            if script.is_of_log:
                one["log"] = {str(line): script.called(line)
                              for line in lines_of(asked.line, cause)}
            objects.append(one)
    return "".join(json_text(one) + "\n" for one in objects)


def run(options: argparse.Namespace) -> int:
    look_at_options(options)
    given = None if options.acl_file is None else AccessList(options.acl_file, options.rules)
    found = [(asked, answered(asked, given, options)) for asked in questions(options)]
    shown = as_lines if options.json else report
    text = "".join(shown(asked, answers) for asked, answers in found)
    sys.stdout.buffer.write(text.encode("utf-8", "backslashreplace"))
    got = all(answer.got() for asked, answers in found for answer in answers
              if asked.client is not None)
    return 0 if got else 1
