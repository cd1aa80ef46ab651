"""Two outputs for one script, line by line: what differs, by client or user name and topic."""
from collections import defaultdict
from collections.abc import Mapping
from functools import lru_cache, partial
from typing import BinaryIO

from ..common.exit_status import Fault
from ..common.files import at, open_input
from ..script.commands import Seen
from ..script.output import Block, Command, Key, blocks, by_key, command_of, is_blank, misfit
from .attribution import Grouped, difference
from .findings import Copies, CopiesRow, Findings, RefusedRow, Refusals, Subject, Totals
from .report_rows import Reasons, Row, all_causes, copies_of, refused_of, row_order

REMEMBERED = 1 << 14  # topics, and clients with a topic
NONE: list[str] = []
NOTHING: Grouped = {}


def gathered(depth: int | None, topic: str) -> str:
    """The topic, or the filter that stands for all topics with the same first levels."""
    levels = topic.split("/", depth) if depth else []
    return "/".join(levels[:-1]) + "/#" if depth and len(levels) > depth else topic


class Losses:
    """What differs, by client and topic. With `reasons` its causes too, and where they need
    it by user name and topic."""

    def __init__(self, depth: int | None) -> None:
        self.gathered = lru_cache(REMEMBERED)(partial(gathered, depth))
        self.reasons: Reasons | None = None
        self.users: Mapping[str, str | None] | None = None  # of clients, where rows are by them
        self.copies: defaultdict[Row, Copies] = defaultdict(Copies)
        self.refusals: defaultdict[Row, Refusals] = defaultdict(Refusals)
        self.entries: dict[Key, Copies] = {}  # of `copies`, those of the first keys

    def add(self, text: bytes, before: Block, after: Block) -> str:
        """Counts what one line of the script was answered in both runs. Says why, if an
        answer can't be of that line."""
        was = by_key(before.copies) if before.copies else NOTHING
        now = was if before.copies == after.copies else by_key(after.copies)
        said = was or now or before.reason or after.reason or before.refused or after.refused
        if said or self.reasons:
            command = command_of(text)
            if said:
                why = misfit(command, before, was)
                if not why and after != before:
                    why = misfit(command, after, now)
                if why:
                    return f"an output is of another script: {why}"
            self.count(command or {}, (before, after), was, now)
        return ""

    def count(self, command: Command, blocks: tuple[Block, Block], was: Grouped,
              now: Grouped) -> None:
        if self.reasons:
            self.reasons.take(command, blocks, was, now)
        if was or now:
            self.add_copies(was, now)
        before, after = blocks
        self.add_refusals(command, before.line, before.refused, after.refused)
        if self.reasons:
            self.reasons.attribution.end(command, before, after, was)

    def who(self, client: str) -> str | None:
        if self.users is not None:
            return self.users.get(client)
        return self.reasons.who(client) if self.reasons else client

    def add_refusals(self, command: Command, line: int, was: str | None,
                     now: str | None) -> None:
        if not (was or now):
            return
        subject = self.subject(command)
        entry = self.refusals[subject]
        entry.before += was is not None
        entry.after += now is not None
        if self.reasons:
            self.reasons.refused(subject, line, command, was, now)
        if was != now:
            if now:
                entry.newly[now] += 1
            if was:
                entry.no_longer[was] += 1

    def add_copies(self, was: Grouped, now: Grouped) -> None:
        for key in was if now is was else was.keys() | now.keys():
            entry = self.entry(key)
            old, new = was.get(key, NONE), now.get(key, NONE)
            entry.before += len(old)
            entry.after += len(new)
            if old is not new:
                lost, gained, changed = difference(old, new)
                entry.lost += lost
                entry.gained += gained
                entry.changed += changed

    def entry(self, key: Key) -> Copies:
        """That of a client and a topic; without `reasons` it is the same each time."""
        found = None if self.reasons else self.entries.get(key)
        if found is None:
            found = self.copies[self.who(key[0]), self.gathered(key[1])]
            if len(self.entries) < REMEMBERED:
                self.entries[key] = found
        return found

    def subject(self, command: Command) -> Row:
        """Whom a refusal concerns: the client, and the topic or filter, or
        what the command does."""
        try:
            what = str(command.get("topic", command.get("filter", command["do"])))
            return self.who(str(command["client"])), self.gathered(what)
        except KeyError:
            return "", "(no command)"

    def changed_copies(self) -> list[tuple[Row, Copies]]:
        return sorted(((k, c) for k, c in self.copies.items() if c.lost or c.gained or c.changed),
                      key=row_order)

    def changed_refusals(self) -> list[tuple[Row, Refusals]]:
        return sorted(
            ((k, r) for k, r in self.refusals.items() if r.newly or r.no_longer), key=row_order)

    def totals(self) -> Totals:
        copies, refusals = self.copies.values(), self.refusals.values()
        return Totals(
            sum(c.before for c in copies), sum(c.after for c in copies),
            sum(c.lost for c in copies), sum(c.gained for c in copies),
            sum(c.changed for c in copies),
            sum(r.before for r in refusals), sum(r.after for r in refusals))


class Run:
    """One output, answer by answer."""

    def __init__(self, name: str) -> None:
        self.name = name
        self.blocks = blocks(name)
        self.head = next(self.blocks, None)

    def take(self, number: int) -> Block | None:
        """The answer to this line of the script, if it has one."""
        head = self.head
        if head is None or head.line != number:
            return None
        self.head = next(self.blocks, None)
        return head


def compare(losses: Losses, script: str, before: str, after: str) -> None:
    runs = [Run(before), Run(after)]
    seen = Seen(script)
    with open_input(script) as commands:
        try:
            compare_lines(losses, script, commands, runs, seen)
        except Fault:
            seen.refuse(commands)
            raise
    seen.refuse()
    refuse_rest(runs, script)


def refuse_rest(runs: list[Run], script: str) -> None:
    for run in runs:
        if run.head:
            raise Fault(f"{run.name} has answers to lines that {script} doesn't have")


def compare_lines(losses: Losses, script: str, commands: BinaryIO, runs: list[Run],
                  seen: Seen) -> None:
    first, second = runs
    for number, text in enumerate(commands, 1):
        if not seen.has_command:
            seen.add(text)
        before, after = first.take(number), second.take(number)
        if before and after and text.startswith(b"{"):
            why = losses.add(text, before, after)
        else:
            why = odd_line(losses, text, runs, (before, after))
        if why:
            raise Fault(f"{at(script, number)}: {why}")


def odd_line(losses: Losses, text: bytes, runs: list[Run],
             answers: tuple[Block | None, Block | None]) -> str:
    """Counts a line that begins otherwise, or isn't answered in both runs. Says why, if the outputs
    can't be of this script."""
    before, after = answers
    if is_blank(text):
        names = [run.name for run, block in zip(runs, answers) if block]
        return blank_answered(names[0]) if names else ""
    if before is None or after is None:
        names = [run.name for run, block in zip(runs, answers) if block is None]
        return unanswered(names)
    return losses.add(text, before, after)


def blank_answered(name: str) -> str:
    return f"blank, and {name} has an answer to it: it is the output of another script"


def unanswered(names: list[str]) -> str:
    if len(names) == 2:
        return "answered in neither output: a run failed or is cut short"
    return f"not answered in {names[0]}: a run failed or is cut short, or is of another script"


def findings(losses: Losses) -> Findings:
    """All that is shown."""
    copies, refusals, reasons = losses.changed_copies(), losses.changed_refusals(), losses.reasons
    if not reasons:
        return Findings(None, [CopiesRow(Subject(*key), value, None) for key, value in copies], [],
                        [RefusedRow(Subject(*key), value) for key, value in refusals],
                        losses.totals())
    reasons.ask_lists((key for key, _ in copies), (key for key, _ in refusals))
    rows = [copies_of(reasons, key, value) for key, value in copies]
    lines = [row for key, value in refusals for row in refused_of(reasons, key, value)]
    return Findings("user" if reasons.by_user else "client", rows, all_causes(rows), lines,
                    losses.totals())
