"""Where the standard's rule is another than mqroute's (docs/reference/deviations.md): what a broker
does by the standard, or may do, is no difference with --standard, and what it has to do is asked.

- A message of QoS 1 or 2 for a group is kept by a member that is away, where no other is connected;
  where one is, it may be (4.5, 4.8.2).
- A message with an interval of 0 may have expired before anybody is sent it (3.3.2.3.3).
- A connection without a session interval that is taken over may leave its session (3.1.2.4).
"""
from collections import Counter
from collections.abc import Iterator
from dataclasses import dataclass, field
from itertools import combinations, islice

from ..script.output import Command
from ..script.sessions import Sessions
from ..script.topics import matches, plain_filter
from .broker_diff import Copy, both, different_copies
from .group_members import copy_of_member, with_their_members

MOST = 1000  # choices that are tried
SHARED = "$share/"
AWAY = "{} messages of groups of which members are away"
ZERO = "{} messages with an interval of 0"
TAKEN_OVER = "{} connections without an interval that were taken over"
BY_STANDARD = "by the standard, where mqroute has a rule of its own: "


class PassedOver(Exception):
    """By the standard the script goes on in two ways: the rest isn't compared."""


@dataclass
class Owed:
    """A message of a group that one of its members may have been given to keep."""
    line: int
    group: str
    copies: dict[str, Copy]  # by member
    is_due: bool  # whether one of them has to have it
    back: set[str] = field(default_factory=set)  # the members that came back without it


class ByStandard:
    def __init__(self, sessions: Sessions) -> None:
        self.sessions = sessions
        self.owed: list[Owed] = []
        self.without_time: set[tuple[str, str]] = set()  # topic and payload of such messages
        self.remarks: Counter[str] = Counter()

    def note(self, what: str) -> None:
        self.remarks[BY_STANDARD + what] += 1

    # -- what is published

    def published(self, line: int, message: Command, ours: list[Copy],
                  theirs: list[Copy]) -> tuple[list[Copy], list[Copy]]:
        """Both sides' copies, as far as they are to be compared."""
        if message.get("expiry") == 0:
            self.without_time.add((message["topic"], message.get("payload", "")))
            self.note(ZERO)
        ours, theirs = self.timed(ours), self.timed(theirs)
        kept = dict(self.groups_with_members_away(message))
        if not kept:
            return with_their_members(ours, theirs, message, self.sessions), theirs
        for dropped in self.choices(ours, kept):
            rest = [copy for copy in ours if copy not in dropped]
            chosen = with_their_members(rest, theirs, message, self.sessions)
            if not different_copies(chosen, theirs, self.sessions):
                self.keep(line, message, kept, {copy.group for copy in dropped}, ours)
                return chosen, theirs
        self.keep(line, message, kept, set(), ours)
        return with_their_members(ours, theirs, message, self.sessions), theirs

    def timed(self, copies: list[Copy]) -> list[Copy]:
        return [copy for copy in copies if (copy.topic, copy.payload) not in self.without_time]

    def groups_with_members_away(self, message: Command) -> Iterator[tuple[str, list[str]]]:
        # whose will it is may still be a member, though its session ends with its connection
        gone = {client for client in self.sessions.away if self.sessions.has(client)}
        gone |= {message["client"]} - self.sessions.live.keys()
        names = {name for client in gone for name in self.sessions.filters[client]
                 if name.startswith(SHARED) and matches(plain_filter(name), message["topic"])}
        for name in sorted(names):
            away = [client for client in sorted(gone) if name in self.sessions.filters[client]]
            if away:
                yield name, away

    def choices(self, ours: list[Copy], kept: dict[str, list[str]]) -> Iterator[list[Copy]]:
        """Which of our copies members that are away may have in place of those that are not."""
        free = [copy for copy in ours if copy.group in kept]
        some = (list(one) for size in range(len(free) + 1) for one in combinations(free, size))
        return islice(some, MOST)

    def keep(self, line: int, message: Command, kept: dict[str, list[str]], dropped: set[str],
             ours: list[Copy]) -> None:
        """Notes what members that are away may have been given."""
        served = {copy.group for copy in ours} - dropped
        for group in kept.keys() - served:
            copies = {client: copy_of_member(message, client, group, self.sessions)
                      for client in kept[group]}
            if any(copy.qos for copy in copies.values()):
                is_due = (group not in dropped and "expiry" not in message
                          and all(copy.qos for copy in copies.values()))
                self.owed.append(Owed(line, group, copies, is_due))
                self.note(AWAY)

    # -- who comes back

    def connected(self, client: str, present: bool, ours: list[Copy],
                  theirs: list[Copy]) -> tuple[list[Copy], list[Copy], list[str]]:
        """Both sides' copies; and what is due and didn't come, as texts to print."""
        ours, theirs = self.timed(ours), self.timed(theirs)
        mine = [one for one in self.owed if client in one.copies]
        if not present:
            for one in mine:
                one.is_due = False
                del one.copies[client]
            return ours, theirs, []
        came = self.came(client, mine, ours, theirs)
        self.owed = [one for one in self.owed if not any(one is it for it in came)]
        rest = self.without(came, client, theirs)
        return ours, rest, list(self.missing(client, [one for one in mine if one not in came]))

    def came(self, client: str, mine: list[Owed], ours: list[Copy],
             theirs: list[Copy]) -> list[Owed]:
        """Which of what it may have been given explains what came."""
        some = (list(one) for size in range(len(mine) + 1) for one in combinations(mine, size))
        for chosen in islice(some, MOST):
            copies = [one.copies[client] for one in chosen]
            if not different_copies([*ours, *copies], theirs, self.sessions):
                return chosen
        return []

    def without(self, came: list[Owed], client: str, theirs: list[Copy]) -> list[Copy]:
        rest = list(theirs)
        for one in came:
            copy = one.copies[client]
            rest.remove(next(it for it in rest if (it.topic, it.payload, it.ids) == (
                copy.topic, copy.payload, copy.ids)))
        return rest

    def missing(self, client: str, mine: list[Owed]) -> Iterator[str]:
        """Where all members are back and none was sent the message."""
        for one in mine:
            one.back.add(client)
            if one.is_due and one.back >= one.copies.keys():
                one.is_due = False
                copy = one.copies[client]
                yield from both(f"{one.group}, by the standard: the message of line {one.line}",
                                f"kept by a member; {copy.topic} {copy.payload!r}", "nothing")

    def taken_over(self, command: Command, present: bool) -> None:
        """Raises PassedOver where a broker goes on with a session that has no interval."""
        client = command["client"]
        if self.sessions.live.get(client) == 0 and not command.get("clean", True) and present:
            self.note(TAKEN_OVER)
            raise PassedOver
