"""The rows of a comparison with their causes: gathered by client or by user name, for
tables, JSON and the page."""
from collections import Counter, defaultdict
from collections.abc import Callable, Iterable, Iterator
from dataclasses import dataclass, field
from typing import TypeVar

from ..script.access_list import Question
from ..script.output import Block, Command
from .acl_verdicts import Decided, Lists, allowed, pair
from .attribution import WHAT, Attribution, Grouped
from .causes import Cause, Names, Tally
from .findings import CauseRow, CauseSum, Copies, CopiesRow, Place, Refusals, RefusedRow, Subject

Row = tuple[str | None, str]  # client or user name, and topic
Counts = TypeVar("Counts", Copies, Refusals)
Why = tuple[str, Cause, Question | None]  # lost, gained or changed
DENIED = "NotAuthorized"
BY_ACCESS = {None, DENIED, "RetainedFull"}  # answers that show whether the publisher may write
OF_ACCESS = ("reader", "publisher", "retained")  # causes that a line of a list decides


def row_order(item: tuple[Row, Counts]) -> tuple[bool, str, str]:
    (who, topic), _ = item
    return who is not None, who or "", topic


@dataclass
class Refused:
    """Lines of one row that are refused. `newly` and `no_longer` count by the refusal's name."""
    tally: Tally = field(default_factory=Tally)
    newly: Counter[str] = field(default_factory=Counter)
    no_longer: Counter[str] = field(default_factory=Counter)
    decided: Decided | None = None

    def add(self, other: "Refused") -> None:
        self.tally.merge(other.tally)
        self.newly.update(other.newly)
        self.no_longer.update(other.no_longer)


class Reasons:
    """The causes of what differs, and the first lines of the script for each.

    With `lists` the lines of these that decide, too.
    """

    def __init__(self, by_user: bool, gathered: Callable[[str], str],
                 lists: Lists | None = None) -> None:
        self.by_user, self.gathered, self.lists = by_user, gathered, lists
        self.attribution, self.names = Attribution(), Names()
        self.copies: defaultdict[Row, defaultdict[Why, Tally]] = defaultdict(
            lambda: defaultdict(Tally))
        self.refusals: defaultdict[Row, defaultdict[Question | None, Refused]] = defaultdict(
            lambda: defaultdict(Refused))
        self.in_both: defaultdict[Row, Tally] = defaultdict(Tally)  # lines that both runs refused
        self.publishers: dict[int, str] = {}  # of the lines that one run alone refused

    def who(self, client: str) -> str | None:
        return self.attribution.user(client) if self.by_user else client

    def take(self, command: Command, blocks: tuple[Block, Block], was: Grouped,
             now: Grouped) -> None:
        """One line of the script. What it leaves behind is for `end`, when the
        line has been counted."""
        self.attribution.begin(command, *blocks)
        if was is now:
            return
        number = blocks[0].line
        for (client, topic), found in self.attribution.differing(command, blocks, was, now).items():
            row = self.copies[self.who(client), self.gathered(topic)]
            for what, cause, publish in found:
                asked = self.question(command, (client, topic), cause, publish)
                row[what, cause, asked].add(number, publish, client, topic, self.names)

    def question(self, command: Command, key: tuple[str, str], cause: Cause,
                 publish: int) -> Question | None:
        """What is to be asked of the lists about a copy, where its cause is one of access."""
        if self.lists is None or self.attribution.history.lists:
            return None
        client, topic = key
        if cause.kind in ("reader", "waited"):  # what waited was sent to the user of before
            waited = command.get("do") == "connect"
            user = self.attribution.history.former if waited else self.attribution.user(client)
            return Question(client, user, topic, "read")
        if cause.kind in ("publisher", "retained") and cause.refused == DENIED:
            publisher = self.publishers.get(publish) if publish else str(command.get("client"))
            return None if publisher is None else Question(publisher, cause.user, topic, "write")
        return None

    def refused(self, row: Row, line: int, command: Command, was: str | None,
                now: str | None) -> None:
        """A line that is refused in one run, or in both."""
        client = str(command.get("client", ""))
        topic = str(command.get("topic", command.get("filter", "")))
        if was == now:
            if self.lists:
                self.in_both[row].add(line, 0, client, topic, self.names)
            return
        asked = None
        if self.lists and command.get("do") == "publish":
            self.publishers[line] = client
            if {DENIED} < {was, now} <= BY_ACCESS and not self.attribution.history.lists:
                asked = Question(client, self.attribution.user(client), topic, "write")
        entry = self.refusals[row][asked]
        entry.tally.add(line, 0, client, topic, self.names)
        entry.newly.update([now] if now else [])
        entry.no_longer.update([was] if was else [])

    def ask_lists(self, copies: Iterable[Row], refusals: Iterable[Row]) -> None:
        """Asks about all at once that these rows need."""
        if self.lists:
            self.lists.ask_all(self.questions(copies, refusals))

    def questions(self, copies: Iterable[Row], refusals: Iterable[Row]) -> Iterator[Question]:
        for row in copies:
            for _, cause, asked in self.copies[row]:
                if asked and self.attribution.queues.resolved(cause).kind in OF_ACCESS:
                    yield asked
        for row in refusals:
            yield from filter(None, self.refusals[row])

    def of(self, row: Row) -> list[tuple[str, Cause, Decided | None, Tally]]:
        """What differs in a row, by cause and by the lines that decide it."""
        known: dict[tuple[str, Cause, tuple[int, ...]], tuple[Decided | None, Tally]] = {}
        for (what, cause, asked), tally in self.copies[row].items():
            cause = self.attribution.queues.resolved(cause)
            decided = None
            if self.lists and asked and cause.kind in OF_ACCESS:
                decided = self.lists.decides(asked, allowed(what, cause), tally.places[0])
            known.setdefault((what, cause, pair(decided)), (decided, Tally()))[1].merge(tally)

        rows = [(what, cause, lines, *found) for (what, cause, lines), found in known.items()]
        rows.sort(key=lambda row: (WHAT.index(row[0]), -row[4].count, str(row[1]), row[2]))
        return [(what, cause, decided, tally) for what, cause, _, decided, tally in rows]

    def refused_of(self, row: Row) -> list[Refused]:
        """The lines of a row that one run alone refused, by the lines that decide it."""
        known: dict[tuple[int, ...], Refused] = {}
        for asked, entry in self.refusals[row].items():
            decided = None
            if self.lists and asked:
                may = DENIED not in entry.no_longer
                decided = self.lists.decides(asked, (may, not may), entry.tally.places[0])
            known.setdefault(pair(decided), Refused(decided=decided)).add(entry)
        return [known[key] for key in sorted(known, key=lambda key: (-known[key].tally.count, key))]

    def lines(self, tally: Tally) -> list[Place]:
        text = self.names.texts
        return [Place(line, text[client], text[topic], publish)
                for line, publish, client, topic in tally.quads()]

    def clients(self, count: int) -> int | None:
        """What a row says of its clients, if it is of more than one."""
        return count if self.by_user else None


def copies_of(reasons: Reasons, row: Row, counts: Copies) -> CopiesRow:
    causes: list[CauseRow] = []
    clients: set[str] = set()
    for what, cause, decided, tally in reasons.of(row):
        causes.append(CauseRow(what, cause, tally.count, reasons.clients(len(tally.clients)),
                               reasons.lines(tally), decided))
        clients |= tally.clients
    return CopiesRow(Subject(*row, reasons.clients(len(clients))), counts, causes)


def refused_of(reasons: Reasons, row: Row, counts: Refusals) -> Iterable[RefusedRow]:
    """One row; where several pairs of lines decide, one for each, and one for what both refused."""
    found = reasons.refused_of(row)
    for one in found:
        own = counts if len(found) == 1 else Refusals(
            one.no_longer.total(), one.newly.total(), one.newly, one.no_longer)
        yield refused_row(reasons, row, own, one.tally, one.decided)
    if len(found) > 1 and row in reasons.in_both:
        both = reasons.in_both[row]
        yield refused_row(reasons, row, Refusals(both.count, both.count), both)


def refused_row(reasons: Reasons, row: Row, counts: Refusals, tally: Tally,
                decided: Decided | None = None) -> RefusedRow:
    subject = Subject(*row, reasons.clients(len(tally.clients)))
    return RefusedRow(subject, counts, tally.count, reasons.lines(tally), decided)


def causes_of(copies: list[CopiesRow]) -> Iterator[tuple[CopiesRow, CauseRow]]:
    """Each cause of each row, where they were asked for."""
    return ((row, cause) for row in copies for cause in row.causes or ())


def all_causes(copies: list[CopiesRow]) -> list[CauseSum]:
    """Each cause once, with what it lost, gained and changed in all rows."""
    sums: defaultdict[tuple[str, str], Counter[str]] = defaultdict(Counter)
    for _, cause in causes_of(copies):
        sums[cause.because(), cause.cause.kind][cause.what] += cause.copies
    ordered = sorted(sums.items(), key=lambda s: (-s[1].total(), s[0]))
    return [CauseSum(because, kind, *(counts[what] for what in WHAT))
            for (because, kind), counts in ordered]
