"""What differs between a script under the current list and its translation by a plan under the
proposed one: by user name, with causes.

What is lost, gained and refused is what `who-loses --plan` counts. Which lines decide is asked
where a publish was refused, and where by both lists the receiver may no longer read the topic, or
may now: at the end, about all of it at once.
"""
from collections import Counter, defaultdict

from ..losses.attribution import WHAT, difference
from ..losses.by_plan import ByPlan, Sides, Turn
from ..losses.causes import READER, UNKNOWN, Cause, words
from ..losses.comparison import Losses
from ..losses.findings import Place, Totals
from ..losses.report_rows import BY_ACCESS, DENIED
from ..script.access_list import Question
from ..script.output import Command, Key
from .acl_answers import Lists
from .findings import RefusedRow, UserRow
from .open_sums import Asked, OpenSums, Reason
from .renaming import Renaming
from .user_rows import RefusedSum, UserSum, in_order, publisher, refused_in_order

NO_NAME = "its topic has no new name"


class PlanLosses(ByPlan):
    def __init__(self, renaming: Renaming, lists: Lists, outputs: tuple[str, str]) -> None:
        losses = Losses(None)
        super().__init__(losses, renaming.plan, (renaming.old, renaming.new), outputs)
        self.renaming, self.open = renaming, OpenSums(lists)
        self.users: dict[str, str | None] = {}
        losses.users = self.users
        self.old_names: dict[str, str] = {}  # of the topics of the publishes, by the new ones
        self.sets_list = False
        self.sums: dict[str | None, UserSum] = {}
        self.refusals: dict[str | None, RefusedSum] = {}
        self.changed: defaultdict[str | None, set[str]] = defaultdict(set)
        self.refused_clients: defaultdict[str | None, set[str]] = defaultdict(set)

    def compare(self) -> None:
        super().compare()
        self.open.settle()

    def count(self, number: int, command: Command, sides: Sides) -> list[Turn]:
        do, topic = command.get("do"), command.get("topic")
        if do == "connect" and not sides[0].refused:
            self.users[str(command.get("client"))] = command.get("user")
        elif do == "publish" and isinstance(topic, str):
            self.old_names.setdefault(self.renamed(topic), topic)
        self.sets_list = self.sets_list or do == "acl"
        turns = super().count(number, command, sides)
        gone, come = (Counter(turn[which] for turn in turns) for which in (0, 1))
        was, now = sides[0].copies, sides[1].copies
        for key in sorted(was.keys() | now.keys()):
            lost, gained, changed = difference(was.get(key, []), now.get(key, []))
            counts = lost - gone[key], gained - come[key], changed
            if any(counts):
                self.differ(number, command, sides, key, counts)
        if sides[0].refused != sides[1].refused:
            self.refuse(number, command, sides)
        return turns

    def own(self, number: int) -> int:
        """The number of the line in the script itself."""
        return self.renaming.own[number]

    # -- messages

    def differ(self, number: int, command: Command, sides: Sides, key: Key,
               counts: tuple[int, int, int]) -> None:
        client, new = key
        user, old = self.users.get(client), self.old_names.get(new, new)
        one = self.sums.setdefault(user, UserSum(user))
        one.count(old, *counts)
        self.changed[user].add(client)
        place = Place(self.own(number), client, old, 0)
        for what, count in zip(WHAT, counts):
            if count:
                reason = self.reason(what, number, command, sides, key)
                self.open.add(one.sums, what, reason, count, place)

    def reason(self, what: str, number: int, command: Command, sides: Sides, key: Key) -> Reason:
        if command.get("do") == "publish" and self.renaming.is_gone(self.own(number)):
            return Reason(NO_NAME)
        was, now = sides[0].refused, sides[1].refused
        if was != now:
            return self.by_refusal(what, command, was, now)
        client, new = key
        topics = self.old_names.get(new, new), new
        asked = None
        if what != "changed":
            asked = self.asked(client, topics, "read", (what == "lost", what == "gained"))
        return Reason(words(UNKNOWN, what, ""), asked, words(READER, what, ""))

    def by_refusal(self, what: str, command: Command, was: str | None, now: str | None) -> Reason:
        do, client = str(command.get("do")), str(command.get("client"))
        user = self.users.get(client)
        kind = "publisher" if do == "publish" else "session"
        cause = Cause(kind, now or was or "", now is not None, user, did=do)
        return Reason(words(cause, what, publisher(user)), self.of_publish(command, was, now))

    def of_publish(self, command: Command, was: str | None, now: str | None) -> Asked | None:
        """What is asked of a publish that one run alone refused."""
        if command.get("do") != "publish" or not {DENIED} < {was, now} <= BY_ACCESS:
            return None
        old = str(command.get("topic"))
        return self.asked(str(command.get("client")), (old, self.renamed(old)), "write",
                          (was != DENIED, now != DENIED))

    def asked(self, client: str, topics: tuple[str, str], access: str,
              allowed: tuple[bool, bool]) -> Asked | None:
        """Of the current list about the old name, and of the proposed one about the new name."""
        if self.sets_list:
            return None
        user = self.users.get(client)
        current, proposed = (Question(client, user, topic, access) for topic in topics)
        return Asked(current, proposed, allowed)

    # -- refusals

    def refuse(self, number: int, command: Command, sides: Sides) -> None:
        own = self.own(number)
        if self.renaming.is_gone(own):
            return
        client = str(command.get("client", ""))
        user, topic = self.users.get(client), command.get("topic", command.get("filter", ""))
        one = self.refusals.setdefault(user, RefusedSum(user))
        was, now = sides[0].refused, sides[1].refused
        one.count(str(topic), int(now is not None), int(was is not None))
        self.refused_clients[user].add(client)
        for what, name in (("refused", now), ("accepted", was)):
            if name is not None:
                reason = Reason(name, self.of_publish(command, was, now))
                self.open.add(one.sums, what, reason, 1, Place(own, client, str(topic), 0))

    # -- what was found

    def totals(self) -> Totals:
        found = self.losses.totals()
        found.turns = self.turns
        return found

    def user_rows(self) -> list[UserRow]:
        for (user, _), counts in self.losses.copies.items():
            if user in self.sums:
                self.sums[user].row.before += counts.before
                self.sums[user].row.after += counts.after
        rows = [one.made() for one in self.sums.values()]
        for row in rows:
            row.clients = len(self.changed[row.user])
            self.renaming.name_new(row.topics_lost)
            self.renaming.name_new(row.topics_gained)
        return in_order(rows)

    def refused_rows(self) -> list[RefusedRow]:
        rows = [one.made() for one in self.refusals.values()]
        for row in rows:
            row.clients = len(self.refused_clients[row.user])
            self.renaming.name_new(row.topics)
        return refused_in_order(rows)
