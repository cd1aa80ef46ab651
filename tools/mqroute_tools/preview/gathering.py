"""All that a preview finds: both lists asked, the script run under both, and the outputs
compared."""
import argparse
import os
from dataclasses import dataclass
from pathlib import Path

from ..common.exit_status import Fault
from ..common.files import at
from ..common.messages import counted, named, say
from ..common.programs import output_of
from ..common.progress import Progress
from ..common.second_process import meanwhile
from ..log.recording import Recorder, compared as compared_with_log, uncollected
from ..losses import acl_verdicts
from ..losses.comparison import Losses, compare, findings
from ..losses.findings import Totals
from ..losses.report_rows import Reasons
from ..plan.kept import moving_script, script_text
from ..plan.regions import fresh
from ..plan.retained import MOVER
from ..plan.topic_plan import read_plan
from ..script.access_list import AccessList
from ..script.oracle import each_answer, found_program
from ..script.output import command_of
from ..script.rules import MOSQUITTO
from .acl_answers import Lists
from .by_conf import ByConf
from .findings import (
    GAINED, LOST, Cause, KeptNames, Preview, RefusedRow, Remark, Right, Subscription, UserRow)
from .in_force import Check, NoAnswer, judged, not_asked_for
from .kept_folder import AFTER, BEFORE, CHECKED, NEW, RETAINED, SCRIPT
from .list_rows import users_of
from .plan_losses import PlanLosses
from .reload import reload_of
from .renaming import Renaming, plan_file
from .scopes import add_scopes
from .script_facts import ScriptFacts, facts_of
from .sources import Script, script_of, sources_of
from .unused_rights import mark_unused
from .user_rows import refused_rows, user_rows
from .why_command import LIMITS, WhyCommand

STEPS = ("comparing the lists", "looking for remarks", "reading what clients did",
         "trying the current list", "looking at subscriptions", "trying the proposed list",
         "comparing what was delivered", "looking whether the current list was in force")
BY_PLAN = *STEPS[:3], "renaming topics", *STEPS[3:], "looking at what is retained"
MOST_USERS = 8  # that are named


class Steps:
    """Shown on a terminal."""

    def __init__(self, names: tuple[str, ...]) -> None:
        self.progress, self.names, self.number = Progress(), names, 0

    def next(self) -> None:
        self.number += 1
        self.progress.show(
            f"step {self.number} of {len(self.names)}: {self.names[self.number - 1]}")

    def clear(self) -> None:
        self.progress.clear()


@dataclass
class Answers:
    """What mqroute-acl answers about both lists."""
    rights: list[Right]
    remarks: list[Remark]
    subscriptions: list[Subscription]


@dataclass
class Differences:
    """What who-loses finds between both runs, by user name."""
    users: list[UserRow]
    refused: list[RefusedRow]
    totals: Totals


def preview_of(options: argparse.Namespace, folder: Path) -> Preview:
    """Raises Fault where a file or a program fails, ListsNotTaken where mosquitto doesn't take a
    line of a list. What is noted goes to standard error."""
    steps = Steps(STEPS if options.plan is None else BY_PLAN)
    try:
        with uncollected():
            return gathered(options, folder, steps)
    finally:
        steps.clear()


def gathered(options: argparse.Namespace, folder: Path, steps: Steps) -> Preview:
    plan = None if options.plan is None else read_plan(options.plan)
    sources = sources_of(options, folder)
    lists = Lists(options.current, options.proposed, options.rules)
    lists.refuse_not_taken()
    if plan is not None:
        lists.rename(plan_file(plan, folder), plan.name)
    answers = asked_first(lists, steps)
    steps.next()
    script = script_of(options, sources, folder, steps.clear)
    asked, lists = lists, tried_by(options, lists, script)
    lists.names[script.path] = script.name
    renaming = None
    if plan is not None:
        steps.next()
        renaming = Renaming(plan, script, folder)
    trial = Trial(options, lists, script, renaming, folder, steps)
    differences, check = trial.run_both(answers)
    kept = None
    if renaming is not None:
        steps.next()
        kept = kept_under(options, lists, renaming, folder)
    steps.clear()
    found = put_together(options, lists, script, renaming, answers, differences)
    found.check, found.said, found.kept = check, said_of(options, script), kept
    if renaming is not None:
        mark_unused(found, asked, renaming)
    if options.by_conf:
        options.by_conf.leave_out(found)
        options.by_conf.name_users(found)
        found.conf = options.by_conf.json()
    if plan is None:
        add_scopes(asked, found)
    return found


@dataclass
class Trial:
    """A script, to be run under both lists."""
    options: argparse.Namespace
    lists: Lists
    script: Script
    renaming: Renaming | None
    folder: Path
    steps: Steps

    def run_both(self, answers: Answers) -> tuple[Differences, Check | None]:
        """What differs, and whether the current list was in force: a second process looks at that,
        where there can be one."""
        path, renaming = self.script.path, self.renaming
        scripts = (path, path) if renaming is None else (renaming.old, renaming.new)
        self.steps.next()
        self.run(self.lists.current, scripts[0], BEFORE)
        if renaming is not None and self.script.reading is not None:
            self.run(self.lists.current, path, CHECKED)  # BEFORE has it under other lines
        with meanwhile(self.checked) as check:
            try:
                self.steps.next()
                answers.subscriptions = receiving_nothing(self.lists, scripts, renaming)
                self.steps.next()
                self.run(self.lists.proposed, scripts[1], AFTER)
                self.steps.next()
                differences = self.differences()
            except Fault:
                self.refuse(check())
                raise
            self.steps.next()
            was_in_force = check()
        self.refuse(was_in_force)
        return differences, was_in_force

    def run(self, one: AccessList, script: str, output: str) -> None:
        run(self.options, self.lists, one, script, self.folder / output)

    def differences(self) -> Differences:
        before, after = (str(self.folder / name) for name in (BEFORE, AFTER))
        if self.renaming is None:
            return compared(self.lists, self.script, before, after)
        return compared_by_plan(self.lists, self.renaming, before, after)

    def checked(self) -> Check | None:
        """Whether the current list was in force when the logs were written; nothing of a script."""
        name, reading = named(self.lists.current.name), self.script.reading
        if not self.script.is_made:
            return None
        if reading is None or self.options.no_check:
            return not_asked_for(name)
        output = self.folder / (BEFORE if self.renaming is None else CHECKED)
        found = compared_with_log(reading.steps, str(output))
        by_conf: ByConf | None = self.options.by_conf
        return judged(name, found, reading.reader, reading.logs.where,
                      by_conf.sets_aside if by_conf else lambda _: False)

    def refuse(self, check: Check | None) -> None:
        """Raises NoAnswer where it would be about another broker, or that isn't known."""
        if check and not check.has_answer():
            said = said_of(self.options, self.script)
            raise NoAnswer(check, [*said, *of_rules(self.options)])


def said_of(options: argparse.Namespace, script: Script) -> list[str]:
    """Of what the answer is: without a configuration, that listeners may have their own lists."""
    by_conf: ByConf | None = options.by_conf
    if script.reading is None:
        return []
    users = absent_users(options.current, script.reading.reader)
    if by_conf or len(script.reading.reader.ports) < 2:
        return [*(by_conf.said if by_conf else []), *users]
    ports = " and ".join(f"{port} ({counted(number, 'connections', ',')})"
                         for port, number in sorted(script.reading.reader.ports.items()))
    return [f"clients came by the ports {ports}: each may have a list of its own "
            "(per_listener_settings). This answer is of one list for all of them: --conf reads "
            "which there are", *users]


def of_rules(options: argparse.Namespace) -> list[str]:
    """Why a right list may look like a wrong one."""
    if options.rules == MOSQUITTO or options.plan is not None:
        return []
    return ["this was asked by mqroute's own rules: --rules mosquitto asks by the broker's"]


def absent_users(name: str, reader: Recorder) -> list[str]:
    """That some whom the current list names don't connect in the log."""
    users = users_of(name)
    absent = [user for user in users if user not in reader.users]
    more = f" and {len(absent) - MOST_USERS:,} more" if len(absent) > MOST_USERS else ""
    return [f"{len(absent):,} of {counted(len(users), 'users', ',')} that {named(name)} names "
            f"don't connect in this log: {', '.join(absent[:MOST_USERS])}{more}"] if absent else []


def tried_by(options: argparse.Namespace, lists: Lists, script: Script) -> Lists:
    """Under which the script is tried: by a configuration each client under its own listener's."""
    by_conf: ByConf | None = options.by_conf
    if by_conf is None or script.reading is None:
        return lists
    by_conf.read(script.reading.reader)
    return by_conf.tried(options.proposed) or lists


def receiving_nothing(lists: Lists, scripts: tuple[str, str],
                      renaming: Renaming | None) -> list[Subscription]:
    """That can receive nothing any more; by a plan with the filters of before."""
    if renaming is None:
        return lists.newly_receiving_nothing(scripts, int)
    found = lists.newly_receiving_nothing(scripts, renaming.own.__getitem__)
    for one in found:
        one.was = str(renaming.field(one.line, "filter"))
    return found


def asked_first(lists: Lists, steps: Steps) -> Answers:
    """What needs no script, so that a list with a fault is refused before a long log is read."""
    steps.next()
    rights = lists.rights()
    steps.next()
    remarks = list(lists.new_remarks())
    steps.clear()
    return Answers(rights, remarks, [])


def run(options: argparse.Namespace, lists: Lists, one: AccessList, script: str,
        output: Path) -> None:
    """mqroute, on the script, under one of the lists."""
    with open(output, "xb") as out:
        output_of([*mqroute_under(options, one), "--", script], lists.named, out=out.fileno())


def mqroute_under(options: argparse.Namespace, one: AccessList) -> list[str]:
    """The words that run it under a list."""
    words = [found_program(), f"--acl-file={one.path}", f"--rules={options.rules}"]
    return words + [f"--{name.replace('_', '-')}={getattr(options, name)}" for name in LIMITS
                    if getattr(options, name) is not None]


def kept_under(options: argparse.Namespace, lists: Lists, renaming: Renaming,
               folder: Path) -> KeptNames:
    """What the broker has under old names, with a script that moves it."""
    words = mqroute_under(options, lists.current)
    kept = renaming.kept(lambda script: each_answer(words, [script]))
    clients = {str(command.get("client")) for command in map(command_of, renaming.made.old)
               if command}
    made = moving_script(kept, fresh(MOVER, clients), None, False)
    if made:
        (folder / RETAINED).write_bytes(script_text(made))
    return KeptNames(kept, None if options.save is None else os.path.join(options.save, RETAINED))


def compared(lists: Lists, script: Script, before: str, after: str) -> Differences:
    """As `who-loses --by user` with both lists."""
    losses = Losses(None)
    deciding = acl_verdicts.Lists(lists.current, lists.proposed)
    reasons = losses.reasons = Reasons(True, losses.gathered, deciding)
    compare(losses, script.path, before, after)
    found = findings(losses)
    deciding.refuse()
    return Differences(user_rows(losses, reasons, found), refused_rows(reasons, found),
                       found.totals)


def compared_by_plan(lists: Lists, renaming: Renaming, before: str, after: str) -> Differences:
    """As `who-loses --plan`."""
    losses = PlanLosses(renaming, lists, (before, after))
    losses.compare()
    return Differences(losses.user_rows(), losses.refused_rows(), losses.totals())


def later_name(options: argparse.Namespace, script: Script) -> str | None:
    """Under which name the script can be read when the preview has ended."""
    if script.is_made:
        return None if options.save is None else os.path.join(options.save, SCRIPT)
    return script.name if script.is_file else None


def why_script(options: argparse.Namespace, found: Preview) -> str | None:
    """The script that mqroute-why can be asked about: with a plan the one under new names."""
    if options.plan is None:
        return found.script
    return None if options.save is None else os.path.join(options.save, NEW)


def wanted_lines(causes: list[Cause]) -> set[int]:
    return {number for cause in causes for place in cause.lines
            for number in (place.line, place.publish)}


def put_together(options: argparse.Namespace, lists: Lists, script: Script,
                 renaming: Renaming | None, answers: Answers,
                 differences: Differences) -> Preview:
    granted, taken = ([one for one in answers.rights if one.change == change]
                      for change in (GAINED, LOST))
    found = Preview(
        options.current, options.proposed, options.source, options.rules,
        later_name(options, script), differences.users, differences.refused, granted, taken,
        answers.subscriptions, answers.remarks, differences.totals)
    found.reload = reload_of(options.proposed)
    known = list(dict.fromkeys(user for name in (options.current, options.proposed)
                               for user in users_of(name)))
    for right in found.granted + found.taken:
        right.known = known
    found.facts = facts_of(script.path, wanted_lines(found.causes()))
    say_of(found.facts, script)
    publishes = {line: line for line in found.facts.wanted_publishes}
    if renaming is not None:
        found.plan, found.carried = renaming.plan.name, list(renaming.carried())
        publishes = renaming.publishes(found.facts.wanted_publishes)
    is_file = lists.proposed.is_file
    found.could_keep = is_file and options.save is None and (
        script.is_made or renaming is not None)
    command = WhyCommand(options, why_script(options, found) if is_file else None, publishes)
    for cause in found.causes():
        cause.command = command.of(cause)
        if script.reading is not None:
            cause.log = script.reading.where(cause.lines[0].line)
    return found


def say_of(facts: ScriptFacts, script: Script) -> None:
    if facts.sets_list:
        say(f"{at(script.name, facts.sets_list)}: it sets an access list: from there on neither "
            "of the two is tried")
