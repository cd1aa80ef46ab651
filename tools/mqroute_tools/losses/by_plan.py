"""Two outputs for one script under old names and under new ones, as `mqroute-plan script` writes
them: a copy under an old name and one under its new name are the same.

The lines that stand for one line of the old script count as that line. A client that the old script
doesn't name is a bridge's: its copies and its refusals are left out.
"""
import json
from collections import Counter, defaultdict
from collections.abc import Iterator
from dataclasses import dataclass, field
from functools import lru_cache

from ..common.exit_status import Fault
from ..common.files import at
from ..common.messages import typed
from ..plan.filters import levels, text_of
from ..plan.script_translation import read_lines
from ..plan.topic_plan import Plan
from ..script.output import (
    Answer, Block, Command, Key, by_key, command_of, is_blank, misfit, read_json)
from .attribution import difference, rest
from .comparison import Losses, Run, blank_answered, refuse_rest, unanswered
from .findings import Copies as Counts

Copies = defaultdict[Key, list[str]]
OMITTED = ("line", "filter")  # of a copy; the filter is a group's, by its name


@dataclass
class Side:
    """What one run answered to the lines that stand for one line of the old script."""
    copies: Copies = field(default_factory=lambda: defaultdict(list))
    refused: str | None = None


Sides = tuple[Side, Side]
Turn = tuple[Key, Key]  # whose copy another member of the group has, and whose it is


class ByPlan:
    """Reads both scripts and both outputs side by side."""

    def __init__(self, losses: Losses, plan: Plan, scripts: tuple[str, str],
                 outputs: tuple[str, str]) -> None:
        self.losses, self.plan, self.scripts = losses, plan, scripts
        self.lines = [read_lines(name) for name in scripts]
        self.runs = [Run(name) for name in outputs]
        self.clients = {(command_of(line) or {}).get("client") for line in self.lines[0]}
        self.renamed = lru_cache(1 << 14)(self.new_name)
        self.turns = 0
        counts = [len(lines) for lines in self.lines]
        if counts[0] != counts[1]:
            raise Fault(f"{scripts[0]} has {counts[0]} lines and {scripts[1]} has {counts[1]}: "
                        f"{typed('plan')} script --write-old writes both with as many")
        self.at_once = all(map(self.is_renamed, self.publishes()))

    def publishes(self) -> Iterator[tuple[str, str]]:
        """The topics of the new script's publishes, each behind that of the old line that it stands
        for."""
        old: object = None
        for lines in zip(*self.lines):
            before, after = (command_of(line) or {} for line in lines)
            if not is_blank(lines[0]):
                old = before.get("topic")
            new = after.get("topic")
            if isinstance(old, str) and isinstance(new, str):
                yield old, new

    def is_renamed(self, topics: tuple[str, str]) -> bool:
        return topics[1] == self.renamed(topics[0])

    def new_name(self, topic: str) -> str:
        """The name under which old and new name are one."""
        rule = self.plan.rule_for(levels(topic))
        made = None if rule is None else rule.new_name(levels(topic))
        return topic if made is None else text_of(made)

    def compare(self) -> None:
        for number, sides in self.answered():
            self.count(number, command_of(self.lines[0][number - 1]) or {}, sides)
        refuse_rest(self.runs, " and ".join(self.scripts))

    def count(self, number: int, command: Command, sides: Sides) -> list[Turn]:
        """Counts what one line of the old script was answered in both runs. Gives the turns."""
        topic = command.get("topic")
        if isinstance(topic, str):
            command = command | {"topic": self.renamed(topic)}
        was, now = sides[0].copies, sides[1].copies
        self.losses.add_copies(was, now)
        turns = list(turns_of(was, now))
        for turn in turns:
            self.leave_out(turn)
        self.losses.add_refusals(command, number, sides[0].refused, sides[1].refused)
        return turns

    def answered(self) -> Iterator[tuple[int, Sides]]:
        """Each line of the old script with the answers to all that stands for it."""
        first, sides = 1, (Side(), Side())
        for number, lines in enumerate(zip(*self.lines), 1):
            if number > 1 and not is_blank(lines[0]):
                yield first, sides
                first, sides = number, (Side(), Side())
            for which, line in enumerate(lines):
                self.take(which, number, line, sides[which])
        yield first, sides

    def take(self, which: int, number: int, line: bytes, side: Side) -> None:
        """Adds what one run answered to a line of its script."""
        run, place = self.runs[which], at(self.scripts[which], number)
        block = run.take(number)
        if is_blank(line):
            if block is not None:
                raise Fault(f"{place}: {blank_answered(run.name)}")
            return
        if block is None:
            raise Fault(f"{place}: {unanswered([run.name])}")
        command = command_of(line)
        why = misfit(command, block, by_key(block.copies, run.name))
        if why:
            raise Fault(f"{place}: an output is of another script: {why}")
        self.add(side, command or {}, block, which == 1 and self.at_once)

    def add(self, side: Side, command: Command, block: Block, is_renamed: bool) -> None:
        """Where old and new names are in use side by side, old ones are renamed; where new ones
        alone are, one may be the old name of another topic."""
        if block.refused and command.get("client") in self.clients:
            side.refused = side.refused or block.refused
        for text in block.copies:
            copy = read_json(text)
            if copy["client"] in self.clients:
                topic = copy["topic"] if is_renamed else self.renamed(copy["topic"])
                side.copies[copy["client"], topic].append(text_of_copy(copy, topic))

    def leave_out(self, turn: Turn) -> None:
        """Where another member of a group was served nothing is lost and nothing gained."""
        self.entry(turn[0]).lost -= 1
        self.entry(turn[1]).gained -= 1
        self.turns += 1

    def entry(self, key: Key) -> Counts:
        return self.losses.copies[self.losses.who(key[0]), self.losses.gathered(key[1])]


def text_of_copy(copy: Answer, topic: str) -> str:
    kept = {name: value for name, value in copy.items() if name not in OMITTED}
    return json.dumps(kept | {"topic": topic}, ensure_ascii=False)


def turns_of(was: Copies, now: Copies) -> Iterator[Turn]:
    lost, gained = in_groups(was, now), in_groups(now, was)
    for slot in lost.keys() & gained.keys():
        yield from zip(lost[slot], gained[slot])


def in_groups(these: Copies, those: Copies) -> dict[tuple[str, str], list[Key]]:
    """The keys of the copies that one run alone has of a group: by the group and the topic."""
    found: defaultdict[tuple[str, str], list[Key]] = defaultdict(list)
    for key, texts in these.items():
        other = those.get(key, [])
        left = difference(texts, other)[0]
        shares = [read_json(text).get("share") for text in rest(texts, other)]
        for share, count in Counter(name for name in shares if name is not None).items():
            found[share, key[1]] += [key] * min(count, left)
            left -= min(count, left)
    return found
