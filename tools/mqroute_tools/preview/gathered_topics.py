"""Topics gathered to filters, as far as it takes to have few: a level in which three topics or
more differ, and in nothing else, becomes `+`."""
from collections import defaultdict
from collections.abc import Mapping
from dataclasses import dataclass
from itertools import combinations
from typing import Any

FEW = 3  # so many make a `+`
ENOUGH, MANY = 3, 12  # so many rows aren't gathered any more, and of more than so many less stays
LONGEST = 10  # topics of more levels stay as they are
ROUNDS, PAIRED = 12, 1000  # so that many topics without a form don't take long
ANY = "+"

Levels = tuple[str, ...]


@dataclass
class Topics:
    """A topic, or a filter that stands for several; with the messages of them all."""
    filter: str
    topics: int
    messages: int
    new: str | None = None  # what a plan makes of it

    def add(self, other: "Topics") -> None:
        self.topics += other.topics
        self.messages += other.messages

    def json(self) -> dict[str, Any]:
        found = {"filter": self.filter, "topics": self.topics, "messages": self.messages}
        return found if self.new is None else found | {"new": self.new}


Rows = dict[Levels, Topics]


def gathered(messages: Mapping[str, int]) -> list[Topics]:
    """The topics of these numbers of messages, those with the most first.

    Each topic is counted under one filter.
    """
    rows = {tuple(topic.split("/")): Topics(topic, 1, count) for topic, count in messages.items()}
    long = [row for levels, row in rows.items() if len(levels) > LONGEST]
    short = {levels: row for levels, row in rows.items() if len(levels) <= LONGEST}
    found = [*long, *merged(short).values()]
    return sorted(found, key=lambda row: (-row.messages, row.filter))


def merged(rows: Rows) -> Rows:
    """One level at a time, that which makes the fewest rows; and where none makes fewer, two that
    vary together."""
    for _ in range(ROUNDS):
        fewer = fewest(rows, 1) if len(rows) > ENOUGH else None
        if fewer is None and ENOUGH < len(rows) <= PAIRED:
            fewer = fewest(rows, 2)
        if fewer is None:
            break
        rows = fewer
    return rows


def fewest(rows: Rows, width: int) -> Rows | None:
    """None where no level, or pair of levels, can be gathered."""
    deepest = max(map(len, rows))
    places = combinations(range(deepest), width)
    found = min((merged_at(rows, those) for those in places), key=len, default=rows)
    return found if len(found) < len(rows) else None


def merged_at(rows: Rows, places: tuple[int, ...]) -> Rows:
    """The rows that differ in these levels alone become one, where there are enough of them."""
    alike: defaultdict[Levels, list[Levels]] = defaultdict(list)
    many = len(rows) > MANY
    for levels in rows:
        if may_vary(levels, places, many):
            alike[with_any(levels, places)].append(levels)
    found = dict(rows)
    for levels, members in alike.items():
        if len(members) >= FEW and all(varies(members, place) for place in places):
            whole = Topics("/".join(levels), 0, 0)
            for member in members:
                whole.add(found.pop(member))
            found[levels] = whole
    return found


def may_vary(levels: Levels, places: tuple[int, ...], many: bool) -> bool:
    """Whether `+` may stand there: no filter matches `$` in its first level by it, and levels have
    to stay that say what it is; where two vary together, more than vary."""
    if places[-1] >= len(levels) or (places[0] == 0 and levels[0].startswith("$")):
        return False
    stay = sum(level != ANY for level in with_any(levels, places))
    least = 1 if many or len(levels) < 3 else 2
    return stay >= least and (len(places) == 1 or 2 * stay > len(levels))


def varies(members: list[Levels], place: int) -> bool:
    return len({levels[place] for levels in members}) >= FEW


def with_any(levels: Levels, places: tuple[int, ...]) -> Levels:
    return tuple(ANY if place in places else level for place, level in enumerate(levels))
