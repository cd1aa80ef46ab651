"""Whether the current list is the one that was in force when the logs were written: what mqroute
answers under it is compared with the copies that the logs have, as by mqroute-compare-log."""
from bisect import insort
from collections import Counter
from collections.abc import Callable
from dataclasses import dataclass, field

from ..common.exit_status import Fault
from ..common.messages import counted, typed
from ..common.texts import escaped
from ..log.comparison import Comparison
from ..log.difference_kinds import BROKERS_TOPIC, UNEXPLAINED
from ..log.recording import Recorder
from ..log.report_line import Line, Refusal
from ..losses.findings import Json

IN_FORCE, NOT_IN_FORCE, NOT_CHECKED, NO_COPIES = (
    "in force", "not in force", "not checked", "no copies")
SHOWN = 5  # differences
NO_CHECK = "--no-check"
NO_MESSAGES = ("no answer about messages: this log has none: set log_type all in mosquitto.conf, "
               "reload the broker, and wait a day")

Found = Line | Refusal


@dataclass
class Check:
    """What comes of it."""
    state: str
    lists: str = ""  # that it is about
    copies: int = 0  # that the broker sent, but for its own topics
    differ: int = 0  # of them and of mqroute's, those that nothing explains
    differences: int = 0  # lines about these, and refusals
    set_aside: dict[str, int] = field(default_factory=dict)  # explained differences, by kind
    first: str = ""  # where the first difference is that nothing explains
    shown: list[str] = field(default_factory=list)  # the first of them
    why: str = ""  # it isn't known

    def holds(self) -> bool:
        return self.state == IN_FORCE

    def has_answer(self) -> bool:
        """Whether a preview says something of the broker that runs."""
        return self.state == IN_FORCE or self.why == NO_CHECK

    def lines(self) -> list[str]:
        if self.state == IN_FORCE:
            return [f"under {self.lists} {self.copies:,} of {counted(self.copies, 'copies', ',')} "
                    f"are as the log has them: this was the list in force, or one that decides the "
                    "same of this log", *self.aside()]
        if self.state == NOT_CHECKED:
            return [f"NOT CHECKED whether {self.lists} was in force: {self.why}", *self.examples()]
        if self.state == NO_COPIES:
            return [NO_MESSAGES]
        what = (f"{counted(self.differences, 'differences', ',')} from the log, {self.differ:,} of "
                f"{counted(self.copies, 'copies', ',')}, first at {self.first}")
        return [f"NOT the list in force: under {self.lists} {what}. A preview would be about "
                f"another broker ({NO_CHECK} shows it all the same)", *self.examples()]

    def aside(self) -> list[str]:
        number = sum(self.set_aside.values())
        words = counted(number, "known differences of mosquitto set aside", ",")
        return [f"    ({words})"] if number else []

    def examples(self) -> list[str]:
        more = self.differences - len(self.shown)
        return [f"    {escaped(one)}" for one in self.shown] + (
            [f"    and {more:,} more: {typed('compare-log')} has all"] if more > 0 and self.shown
            else [])

    def in_words(self) -> str:
        """All in one line."""
        return self.lines()[0]

    def json(self) -> Json:
        return {"state": self.state, "lists": self.lists, "copies": self.copies,
                "differ": self.differ, "differences": self.differences,
                "set_aside": self.set_aside, "first": self.first, "shown": self.shown,
                "why": self.why}


class NoAnswer(Fault):
    """It isn't the list in force, or that isn't known: nothing would be said of this broker."""

    def __init__(self, check: Check, said: list[str]) -> None:
        super().__init__(check.in_words())
        self.check, self.said = check, said

    def lines(self) -> list[str]:
        """That a log has nothing comes last, where it isn't lost."""
        if self.check.state == NO_COPIES:
            return [*self.said, *self.check.lines()]
        return [*self.check.lines(), *self.said]


def not_asked_for(lists: str) -> Check:
    return Check(NOT_CHECKED, lists, why=NO_CHECK)


@dataclass
class Sums:
    """Of what a comparison found, of which there may be much."""
    brokers: int = 0  # copies of the broker's own topics
    aside: Counter[str] = field(default_factory=Counter)  # differences set aside, by kind
    copies: int = 0  # of the others
    differences: int = 0
    first: list[Found] = field(default_factory=list)  # a few of these, by their lines

    def add(self, one: Found, is_set_aside: Callable[[Found], bool]) -> None:
        if one.kind == BROKERS_TOPIC:
            self.brokers += one.copies()
        elif one.kind in UNEXPLAINED and not is_set_aside(one):
            self.copies += one.copies()
            self.differences += 1
            insort(self.first, one, key=lambda each: each.place)
            del self.first[SHOWN:]
        else:
            self.aside[one.kind] += 1


def judged(lists: str, found: Comparison, reader: Recorder, where: Callable[[int], str],
           is_set_aside: Callable[[Found], bool]) -> Check:
    """By the comparison of the logs that this reader read with mqroute's copies; `where` gives the
    file and line."""
    sums = Sums()
    for one in found.lines():
        sums.add(one, is_set_aside)
    check = Check(IN_FORCE, lists, found.sent - sums.brokers, sums.copies, sums.differences,
                  dict(sorted(sums.aside.items())))
    if not check.copies and (found.delivered or not reader.incoming):
        check.state = NO_COPIES
    elif reader.begins.nameless:
        check.state, check.why = NOT_CHECKED, nameless(len(reader.begins.nameless))
    elif sums.first:
        place = sums.first[0].place
        check.state, check.first = NOT_IN_FORCE, where(place)
        check.shown = list(map(str, sums.first))
        check.why = doubt(check, place, reader, where)
        check.state = NOT_CHECKED if check.why else NOT_IN_FORCE
    return check


def nameless(number: int) -> str:
    if number == 1:
        who, names = "1 client was connected before the log began, and it has no user name", "it"
    else:
        who = f"{number:,} clients were connected before the log began, and it has no user names"
        names = "them"
    return (f"{who} for {names}. Begin with the log before it, with what that log left (--begin), "
            "or with a restart of the broker")


def doubt(check: Check, first: int, reader: Recorder, where: Callable[[int], str]) -> str:
    """What may explain the differences, of which this is the first line."""
    reread = [place for place in reader.reread if place < first]
    if reread:
        return (f"all differences, {check.differ:,} of {counted(check.copies, 'copies', ',')}, "
                f"stand behind {where(reread[-1])}, where the broker read its configuration again: "
                "the list may have been changed there. Give the log behind it, with what was "
                "before (--begin)")
    if not reader.shows_all():
        return (f"{check.differ:,} of {counted(check.copies, 'copies', ',')} differ, first at "
                f"{check.first}, and the log begins in the middle: what was before it isn't known")
    return ""
