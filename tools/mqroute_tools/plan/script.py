"""plan script: writes a script under a plan: for all clients at once, or for some beside a
bridge."""
import argparse
import sys

from ..common.files import whole
from ..common.messages import counted, own_name, say
from .added_client import client_and_user
from .bridge import Bridge, moved_clients
from .check import report_script
from .report import Report
from .script_translation import NewScript, everyone, read_lines, rewritten
from .topic_plan import Plan, read_plan, read_text
from .translator import Translator

BRIDGE = "plan-bridge"


def run(options: argparse.Namespace) -> int:
    plan = read_plan(options.plan)
    translator, lines = Translator(plan), read_lines(options.script)
    is_moved = everyone if options.moved is None else moved_clients(options.moved)
    bridge = bridge_of(options, plan)
    made = rewritten(translator, lines, is_moved)
    several = sum(len(new) != 1 for new in made.lines)
    carried = "" if bridge is None else f", {bridge.carry(made)} of the bridge"
    report = Report()
    report_script(report, translator, options.script, made)
    write(made, options.write_old)
    look = (f"; {own_name()} check {options.plan} --script {options.script} shows what to look at"
            if report.odd else "")
    became = f"{several} of them became several lines or none"
    say(f"{counted(len(lines), 'lines')}, {became}{carried}{look}")
    return int(report.odd)


def bridge_of(options: argparse.Namespace, plan: Plan) -> Bridge | None:
    if options.moved is None or options.no_bridge:
        return None
    client, user = client_and_user(options.bridge or BRIDGE)
    acl = None if options.acl_file is None else read_text(options.acl_file)
    return Bridge(plan, client, user, acl)


def write(made: NewScript, old: str | None) -> None:
    if old is not None:
        with whole(old) as file:
            file.write(made.old_text())
    sys.stdout.buffer.write(made.new_text())
