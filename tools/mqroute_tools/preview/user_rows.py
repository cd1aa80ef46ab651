"""What who-loses finds, summed up for each user name."""
from collections import Counter, defaultdict
from collections.abc import Hashable, Iterable
from dataclasses import dataclass, field

from ..common.tables import user_shown
from ..losses.acl_verdicts import Decided, pair
from ..losses.causes import KEPT, Tally, words
from ..losses.comparison import Losses
from ..losses.findings import CauseRow, CopiesRow, Findings, Place, RefusedRow as RefusedTopic
from ..losses.report_rows import Reasons
from .findings import Cause, Deciding, RefusedRow, UserRow
from .gathered_topics import gathered

ORDER = ("lost", "gained", "changed", "refused", "accepted")


@dataclass
class Sum:
    """The causes of one user that are alike."""
    what: str
    because: str
    decided: Decided | None
    count: int = 0
    places: list[Place] = field(default_factory=list)

    def add(self, count: int, places: Iterable[Place]) -> None:
        self.count += count
        together = sorted([*self.places, *places], key=lambda place: (place.line, place.client))
        self.places = together[:KEPT]

    def cause(self) -> Cause:
        deciding = None
        if self.decided:
            deciding = Deciding(*(one.deciding_line() for one in
                                  (self.decided.before, self.decided.after)))
        return Cause(self.what, self.count, self.because, deciding, self.places)


class Sums:
    """By what, why and the lines that decide."""

    def __init__(self) -> None:
        self.known: dict[Hashable, Sum] = {}

    def add(self, one: Sum, count: int, places: Iterable[Place]) -> Sum:
        key = one.what, one.because, pair(one.decided)
        found = self.known.setdefault(key, one)
        found.add(count, places)
        return found

    def causes(self) -> list[Cause]:
        """The largest first, those lost before those gained."""
        found = [one.cause() for one in self.known.values()]
        return sorted(found, key=lambda one: (ORDER.index(one.what), -one.count))


class UserSum:
    """The rows by topic of one user."""

    def __init__(self, user: str | None) -> None:
        self.row, self.sums = UserRow(user), Sums()
        self.lost: Counter[str] = Counter()
        self.gained: Counter[str] = Counter()

    def add(self, found: CopiesRow) -> None:
        counts = found.copies
        self.count(found.subject.topic, counts.lost, counts.gained, counts.changed)
        for cause in found.causes or ():
            self.add_cause(cause)

    def count(self, topic: str, lost: int, gained: int, changed: int) -> None:
        self.row.lost += lost
        self.row.gained += gained
        self.row.changed += changed
        self.lost.update({topic: lost} if lost else {})
        self.gained.update({topic: gained} if gained else {})

    def add_cause(self, cause: CauseRow) -> None:
        because = words(cause.cause, cause.what, publisher(cause.cause.user))
        self.sums.add(Sum(cause.what, because, cause.decided), cause.copies, cause.lines)

    def made(self) -> UserRow:
        self.row.topics_lost, self.row.topics_gained = gathered(self.lost), gathered(self.gained)
        self.row.causes = self.sums.causes()
        return self.row


def publisher(user: str | None) -> str:
    return "a client without a user name" if user is None else user_shown(user)


def user_rows(losses: Losses, reasons: Reasons, found: Findings) -> list[UserRow]:
    """Of users for whom something changes."""
    sums: dict[str | None, UserSum] = {}
    for row in found.copies:
        sums.setdefault(row.subject.name, UserSum(row.subject.name)).add(row)
    for (user, _), counts in losses.copies.items():
        if user in sums:
            sums[user].row.before += counts.before
            sums[user].row.after += counts.after
    clients = clients_of((row, tally) for row, found_why in reasons.copies.items()
                         for tally in found_why.values())
    rows = [one.made() for one in sums.values()]
    for one in rows:
        one.clients = len(clients[one.user])
    return in_order(rows)


def in_order(rows: list[UserRow]) -> list[UserRow]:
    """Those first that lose the largest share."""
    return sorted(rows, key=lambda row: (-row.share_lost(), -row.lost, -row.gained,
                                         row.user is not None, row.user or ""))


def clients_of(
        tallies: Iterable[tuple[tuple[str | None, str], Tally]]) -> dict[str | None, set[str]]:
    found: defaultdict[str | None, set[str]] = defaultdict(set)
    for (user, _), tally in tallies:
        found[user] |= tally.clients
    return found


class RefusedSum:
    """The refused publishes by topic of one user."""

    def __init__(self, user: str | None) -> None:
        self.row, self.sums = RefusedRow(user), Sums()
        self.topics: Counter[str] = Counter()

    def add(self, found: RefusedTopic) -> None:
        newly, no_longer = found.refusals.newly.total(), found.refusals.no_longer.total()
        self.count(found.subject.topic, newly, no_longer)
        for what, names, count in (("refused", found.refusals.newly, newly),
                                   ("accepted", found.refusals.no_longer, no_longer)):
            if count:
                because = ", ".join(sorted(names))
                self.sums.add(Sum(what, because, found.decided), count, found.lines or ())

    def count(self, topic: str, newly: int, no_longer: int) -> None:
        self.row.refused += newly
        self.row.accepted += no_longer
        self.topics[topic] += newly + no_longer

    def made(self) -> RefusedRow:
        self.row.topics, self.row.causes = gathered(self.topics), self.sums.causes()
        return self.row


def refused_rows(reasons: Reasons, found: Findings) -> list[RefusedRow]:
    """Of users of whose publishes one list alone refuses some."""
    sums: dict[str | None, RefusedSum] = {}
    for row in found.refused:
        if row.refusals.newly or row.refusals.no_longer:
            sums.setdefault(row.subject.name, RefusedSum(row.subject.name)).add(row)
    clients = clients_of((row, one.tally) for row, entries in reasons.refusals.items()
                         for one in entries.values())
    rows = [one.made() for one in sums.values()]
    for one in rows:
        one.clients = len(clients[one.user])
    return refused_in_order(rows)


def refused_in_order(rows: list[RefusedRow]) -> list[RefusedRow]:
    """Those first with the most."""
    return sorted(rows, key=lambda row: (-row.refused, -row.accepted, row.user is not None,
                                         row.user or ""))
