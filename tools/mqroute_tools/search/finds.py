"""Scripts that differ, each made as small as it goes on differing in that way."""
import time
from collections.abc import Iterator
from dataclasses import dataclass, field
from typing import Protocol

from ..common.exit_status import Fault
from ..common.messages import in_words
from ..common.texts import json_text
from ..live.line_difference import LineDifference
from ..live.run_ends import NEVER, TimeIsUp
from ..live.stored_diff import head
from ..script.fresh_names import Marks, fresh
from ..script.oracle import Oracle
from ..script.output import Block, Command
from .difference_kinds import Difference, Kind, kind, separate
from .exercised import Exercised
from .known import Known
from .random_scripts import Maker
from .shrinking import connected, shrink

TRIES = 2  # a broker may do the same thing now and then
# one in so many scripts whose differences all seem known is made small all the same
LOOK_AGAIN = 10
LONGEST_SHRINKING = 60  # seconds
Script = list[Command]


class Broker(Protocol):
    """The other side."""

    def can_run(self, script: Script) -> bool: ...

    def run(self, script: Script, blocks: list[Block],
            until: float = ...) -> list[LineDifference]: ...


@dataclass
class Find:
    """A script that differs, with both sides' answers."""
    kind: Kind
    script: Script
    answers: list[Block]
    differences: list[Difference]
    number: int = 0  # of the random script that it was made of; 0 for a known one
    is_cut_off: bool = False  # in shrinking: it may not be the smallest

    def lines(self) -> list[str]:
        return [as_json(command) for command in self.script]

    def output(self) -> list[str]:
        return [text.rstrip("\n") for answer in self.answers for text in answer.texts()]

    def report(self) -> list[str]:
        """What replay prints for it."""
        return report(self.script, self.differences)


def report(script: Script, differences: list[Difference]) -> list[str]:
    found: dict[int, list[str]] = {}
    for difference in differences:
        texts = found.setdefault(
            difference.line, [head(difference.line, script[difference.line - 1])])
        texts += [] if difference.texts[0] in texts else difference.texts
    return [text for texts in found.values() for text in texts]


def as_json(value: Command) -> str:
    return json_text(value, separators=(",", ":"))


@dataclass
class Unrepeated:
    """A difference that was seen once and not again."""
    number: int
    script: Script
    difference: Difference


@dataclass
class Search:
    broker: Broker
    oracle: Oracle
    until: float = NEVER
    known: list[Known] = field(default_factory=list)
    found: list[Kind] = field(default_factory=list)
    passing: list[Unrepeated] = field(default_factory=list)
    exercised: Exercised = field(default_factory=Exercised)
    runs: int = 0
    scripts: int = 0  # that were run to their end
    number: int = 0  # of the script that is looked at
    time_is_up: bool = False
    by_letter: bool = False  # whether the mark of a script stands behind each letter of its names

    def __post_init__(self) -> None:
        self.marks = Marks()
        self.ran: tuple[Script, list[Block]] = [], []  # the last script, as it was sent

    def run(self, script: Script) -> list[Difference]:
        """What differs, with names that no script before had."""
        self.runs += 1
        mark = self.marks.next()
        marked = fresh(script, mark, self.by_letter)
        self.ran = marked, blocks = marked, self.oracle.blocks(marked)
        try:
            found = self.broker.run(marked, blocks, self.until)
        except OSError as fault:
            text = " ".join(map(as_json, script))
            raise Fault(f"the broker is gone ({in_words(fault)}) in this script, "
                        f"or after the one before: {text}") from fault
        return [one for line in found
                for one in separate(line.line, line.did, [text.replace(mark, "")
                                                          for text in line.texts], line.ended)]

    # -- what is known

    def is_new(self, found: Kind) -> bool:
        """Whether it is of no known kind; a known one is seen then."""
        for one in self.known:
            if one.covers(found):
                one.seen_in |= {self.number} if self.number else set()
                return False
        return not any(one.covers(found) for one in self.found)

    def kinds(self) -> list[Kind]:
        return [*self.found, *(found for one in self.known for found in one.kinds)]

    # -- making it small

    def differs(self, script: Script, what: str, but: list[Kind]) -> list[Difference]:
        """The script's differences if one is this, of none of these kinds: it first."""
        found = self.run(script)
        for one in found:
            if one.what == what and not any(it.covers(kind(script, one)) for it in but):
                return [one, *(other for other in found if other is not one)]
        return []

    def find(self, script: Script, difference: Difference, but: list[Kind]) -> Find | None:
        """The difference in its smallest script, if it is of no kind that is known;
        from then on its kind is."""
        what, small = difference.what, Smaller(self, difference.what, but)
        script = connected(script[:difference.line])
        found = small.made(script, difference)
        if found is None:
            self.passing.append(Unrepeated(self.number, script, difference))
            return None
        script, differences = found
        if not small.is_cut_off:
            again = (self.differs(script, what, []) for _ in range(TRIES))
            confirmed = next((one for one in again if one), None)
            if confirmed is None:
                self.passing.append(Unrepeated(self.number, script, difference))
                return None
            differences = confirmed
        return self.new(script, differences, small.is_cut_off)

    def new(self, script: Script, differences: list[Difference], is_cut_off: bool) -> Find | None:
        found = kind(script, differences[0])
        if not self.is_new(found):
            return None
        self.found.append(found)
        return Find(found, script, self.oracle.blocks(script),
                    sorted(differences, key=lambda one: one.line), self.number, is_cut_off)

    # -- searching

    def all_of(self, script: Script) -> Iterator[Find]:
        """The kinds of differences in a script that are new."""
        differences = self.run(script)
        self.exercised.add(*self.ran)
        self.scripts += 1
        new = [one for one in differences if self.is_new(kind(script, one))]
        if not new and differences and self.number % LOOK_AGAIN == 0:
            chosen = differences[self.number // LOOK_AGAIN % len(differences)]
            yield from self.some(self.find(script, chosen, []))
        for difference in new:
            yield from self.another(script, difference)

    def another(self, script: Script, difference: Difference) -> Iterator[Find]:
        """What a difference of a script is, if it is of no kind that is known by now."""
        if self.is_new(kind(script, difference)):
            yield from self.some(self.find(script, difference, self.kinds()))

    def some(self, find: Find | None) -> Iterator[Find]:
        if find:
            yield find

    def finds(self, maker: Maker, numbers: Iterator[int]) -> Iterator[Find]:
        """Those in the scripts of these numbers, until the time is up."""
        return self.guarded(self.in_scripts(maker, numbers))

    def in_scripts(self, maker: Maker, numbers: Iterator[int]) -> Iterator[Find]:
        for self.number in numbers:
            if time.monotonic() > self.until:
                raise TimeIsUp
            script = maker.script(self.number)
            if self.broker.can_run(script):
                yield from self.all_of(script)

    def guarded(self, finds: Iterator[Find]) -> Iterator[Find]:
        """The same, until the time is up."""
        try:
            yield from finds
        except TimeIsUp:
            self.time_is_up = True


class CutOff(Exception):
    """There is no time to go on."""


class Smaller:
    """Makes a script smaller for as long as it differs in one way."""

    def __init__(self, search: Search, what: str, but: list[Kind]) -> None:
        self.search, self.what, self.but = search, what, but
        self.end = min(search.until, time.monotonic() + LONGEST_SHRINKING)
        self.is_cut_off = False
        # the smallest so far, and what differs in it
        self.best: tuple[Script, list[Difference]] | None = None

    def still(self, script: Script) -> bool:
        if not self.search.broker.can_run(script):
            return False
        try:
            if time.monotonic() > self.end:
                raise CutOff
            found = self.search.differs(script, self.what, self.but)
        except TimeIsUp as up:
            raise CutOff from up
        if found:
            self.best = script, found
        return bool(found)

    def made(self, script: Script,
             difference: Difference) -> tuple[Script, list[Difference]] | None:
        """The smallest script, and what differs; None where it isn't seen again. Where there is no
        time to look, the script stands as it is."""
        try:
            if any(self.still(script) for _ in range(TRIES)):
                shrink(script, self.still)
            return self.best
        except CutOff:
            self.is_cut_off = True
            return self.best or (script, [difference])
