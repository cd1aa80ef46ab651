"""Which lines of two access lists decide what differs, as `mqroute-acl why` shows it.

The lists are those that were in force when the script began: nothing is listed of lines after one
that sets another.
"""
from collections.abc import Iterable
from dataclasses import dataclass

from ..common.exit_status import Fault
from ..common.tables import shown, user_shown
from ..script.access_list import AccessList, Question, Verdict
from ..script.rules import WHOSE
from .causes import AFTER, BEFORE, Cause

RUNS = ("before", "after")


@dataclass
class Decided:
    """The verdicts of the list before and of the list after."""
    before: Verdict
    after: Verdict

    def in_words(self) -> str:
        return f"{self.before.in_words()} -> {self.after.in_words()}"


class Lists:
    """The list before and the list after, and where they contradict the outputs."""

    def __init__(self, before: AccessList, after: AccessList) -> None:
        self.lists = before, after
        self.contradiction = ""  # the first
        self.fit_swapped = True  # as far as was asked

    def ask_all(self, questions: Iterable[Question]) -> None:
        """Each list at once about all that `decides` will be asked."""
        together = list(questions)
        for one in self.lists:
            one.ask_all(together)

    def decides(self, asked: Question, allowed: tuple[bool, bool], line: int) -> Decided:
        """The verdicts of both. `allowed` is what the outputs show of the runs, at this line."""
        before, after = (one.verdict(asked) for one in self.lists)
        said = before.allowed, after.allowed
        if said != allowed and not self.contradiction:
            run = BEFORE if said[BEFORE] != allowed[BEFORE] else AFTER
            name, when = self.lists[run].name, RUNS[run]
            self.contradiction = contradiction(name, asked, said[run], when, line)
        self.fit_swapped &= said[::-1] == allowed
        return Decided(before, after)

    def refuse(self) -> None:
        """Raises Fault where they are not the lists of these outputs."""
        if self.contradiction:
            swapped = " swapped?" if self.fit_swapped else ""
            whose = WHOSE[self.lists[BEFORE].rules]
            raise Fault(f"by {whose} the lists don't fit the outputs:{swapped} "
                        f"{self.contradiction}")


def contradiction(name: str, asked: Question, says: bool, run: str, line: int) -> str:
    user = "without a user name" if asked.user is None else f"user {user_shown(asked.user)}"
    may, shows = ("lets", "may not") if says else ("doesn't let", "may")
    what = f"{shown(asked.client)} ({user}) {asked.access} {shown(asked.topic)}"
    return (f"line {line} of the script: {name} {may} {what}, and the output {run} shows that it "
            f"{shows}")


def pair(decided: Decided | None) -> tuple[int, ...]:
    """The numbers of the lines that decide: 0 for no line; empty where nothing was asked."""
    verdicts = [decided.before, decided.after] if decided else []
    lines = [verdict.deciding_line() for verdict in verdicts]
    return tuple(line.line if line else 0 for line in lines)


def allowed(what: str, cause: Cause) -> tuple[bool, bool]:
    """What a copy that is lost or gained shows of both runs: who might read or write there."""
    before = what == "lost" if cause.kind == "reader" else cause.newly
    return before, not before
