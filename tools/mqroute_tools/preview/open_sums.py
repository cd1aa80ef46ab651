"""Sums by what the lists decide, where these are asked when all is known that is to be asked: each
of them once, about everything."""
from collections.abc import Iterator
from dataclasses import dataclass
from typing import NamedTuple

from ..losses.acl_verdicts import Decided
from ..losses.causes import KEPT
from ..losses.findings import Place
from ..script.access_list import Question
from .acl_answers import Lists
from .user_rows import Sum, Sums


class Asked(NamedTuple):
    """What is asked of the current list, and what of the proposed one."""
    current: Question
    proposed: Question
    allowed: tuple[bool, bool]  # what they say where they are why something differs


class Reason(NamedTuple):
    """Why something differs."""
    words: str
    asked: Asked | None = None
    decided: str = ""  # other words, where it is the lists that decide


Key = tuple[Sums, str, Reason]


@dataclass
class Entry:
    """What has one reason."""
    count: int = 0
    places: int = 0


class OpenSums:
    def __init__(self, lists: Lists) -> None:
        self.lists = lists
        self.entries: dict[Key, Entry] = {}
        self.places: list[tuple[Key, Place]] = []  # the first of each, in the order of the script

    def add(self, sums: Sums, what: str, reason: Reason, count: int, place: Place) -> None:
        """To sums that have it when the lists have been asked."""
        key = sums, what, reason
        entry = self.entries.setdefault(key, Entry())
        entry.count += count
        entry.places += 1
        if entry.places <= KEPT:
            self.places.append((key, place))

    def settle(self) -> None:
        """Asks, and adds everything in the order in which it came."""
        self.lists.current.ask_all(one.current for one in self.asked())
        self.lists.proposed.ask_all(one.proposed for one in self.asked())
        made: dict[Key, Sum] = {}
        for key, entry in self.entries.items():
            sums, what, reason = key
            made[key] = sums.add(Sum(what, *self.settled(reason)), entry.count, [])
        for key, place in self.places:
            made[key].add(0, [place])

    def asked(self) -> Iterator[Asked]:
        return (reason.asked for _, _, reason in self.entries if reason.asked)

    def settled(self, reason: Reason) -> tuple[str, Decided | None]:
        """The words, and the lines that decide where the lists say what they have to."""
        if reason.asked:
            found = Decided(self.lists.current.verdict(reason.asked.current),
                            self.lists.proposed.verdict(reason.asked.proposed))
            if (found.before.allowed, found.after.allowed) == reason.asked.allowed:
                return reason.decided or reason.words, found
        return reason.words, None
