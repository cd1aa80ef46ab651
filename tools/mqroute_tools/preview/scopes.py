"""What a right is of: the filter of the line that grants it, what may narrow that, and a topic of
the day about which the same lines decide."""
from collections import Counter, defaultdict
from collections.abc import Iterator
from dataclasses import dataclass, field
from heapq import nsmallest
from itertools import chain, islice
from pathlib import Path

from ..plan.filters import HASH, PLUS, Levels, covers, is_wild, levels, meet, text_of
from ..script.access_list import AccessList, Line, Question
from ..script.rules import MOSQUITTO
from ..script.text_faults import is_topic
from ..script.topics import TopicTree
from .acl_answers import Lists, number
from .findings import LOST, Client, Preview, Right, Scope
from .list_rows import MARK, Row, rows_of
from .words import level_shown, topic_of

ASKED = 5  # topics of the day that are asked about for each right, at most
DEEPEST = 3  # levels that are put in the place of a `#`
MANY = 100  # filters that narrow a right, of which none is looked for in another
MOST_QUESTIONS = 600  # of both lists, for all rights


@dataclass
class Side:
    """One of the lists, and the line of it that decides."""
    asked: AccessList
    rows: list[Row]
    line: int  # 0: no line does

    def row(self) -> Row | None:
        return next((row for row in self.rows if row.line == self.line), None)


@dataclass
class Region:
    """The topics of a filter, but for some."""
    filter: Levels
    has_marks: bool
    but_for: list[Levels] = field(default_factory=list)
    in_part: bool = False  # some of these, and it isn't known which
    most: list[str] = field(default_factory=list)  # topics of the day, the most published first


class Scopes:
    """`published` has how often the script publishes to each topic."""

    def __init__(self, lists: Lists, published: Counter[str]) -> None:
        self.lists, self.published = lists, published
        self.rows = {one.path: rows_of(one.path, one.name)
                     for one in (lists.current, lists.proposed)}
        self.topics, self.left = TopicTree(), MOST_QUESTIONS
        self.regions: dict[int, Region] = {}  # by the rights' id()
        for topic in filter(is_topic, published):
            self.topics.add(topic)
        named = {level for rows in self.rows.values() for row in rows
                 for level in levels(row.filter)}
        self.fresh = next(name for name in fresh_names() if name not in named)

    def scope(self, right: Right) -> Scope | None:
        """None where a line that decides isn't known here."""
        old = self.side(self.lists.current, right.deciding.current)
        new = self.side(self.lists.proposed, right.deciding.proposed)
        grants, other = (old, new) if right.change == LOST else (new, old)
        region = region_of(grants.row(), other.row())
        if region is None or (other.line and other.row() is None):
            return None
        self.narrow(region, right, grants, other)
        topics = self.published_in(region)
        if not region.has_marks:
            region.most = nsmallest(ASKED, topics, lambda one: (-self.published[one], one))
        self.regions[id(right)] = region
        return Scope(text_of(region.filter), list(map(text_of, region.but_for)), region.in_part,
                     sum(self.published[topic] for topic in topics))

    def exemplify(self, rights: list[Right]) -> None:
        """Adds a topic to the scope of each, unless that is one itself."""
        found = [(right, region) for right in rights
                 if (region := self.regions.get(id(right))) and not is_one_topic(region)]
        questions = list(self.questions(found))
        for one in (self.lists.current, self.lists.proposed):
            one.ask_all(questions)
        for right, region in found:
            if right.scope:
                right.scope.topic, right.scope.published = self.such_as(right, region)

    def side(self, asked: AccessList, line: Line | None) -> Side:
        return Side(asked, self.rows[asked.path], number(line))

    # -- what narrows it

    def narrow(self, region: Region, right: Right, grants: Side, other: Side) -> None:
        """Outside what the rows below match, the right changes for all whom it is of: there it is
        granted by the one list, and not by the other."""
        if is_one_topic(region):
            return
        by_mosquitto = self.lists.rules == MOSQUITTO
        rows = RowsByUser([*self.denying(grants), *self.allowing(other, right.access)])
        found = [narrowed(region, rows.of(one)) for one in right.clients]
        first = region.filter[0]
        may_be_refused = first.startswith("$") or (region.has_marks and MARK.search(first))
        region.in_part |= (by_mosquitto and bool(may_be_refused)) or any(
            one != found[0] for one in found)
        region.but_for = [] if region.in_part else found[0]

    def denying(self, grants: Side) -> Iterator[Row]:
        """What may deny where the line grants: by mosquitto's rules no `pattern` line overrules a
        `topic` line."""
        row = grants.row()
        patterns_too = self.lists.rules != MOSQUITTO or (row is not None and row.is_pattern)
        return (one for one in grants.rows
                if one.denies() and (patterns_too or not one.is_pattern))

    def allowing(self, other: Side, access: str) -> Iterator[Row]:
        """What may grant where the other list does not: where a line denies, only by mosquitto's
        rules, a `topic` line where that is a `pattern` line."""
        deny = other.row()
        if deny is not None and (self.lists.rules != MOSQUITTO or not deny.is_pattern):
            return iter(())
        return (one for one in other.rows if one.access in (access, "readwrite")
                and (deny is None or not one.is_pattern))

    # -- a topic of it

    def published_in(self, region: Region) -> set[str]:
        """Of the script's topics; a mark may be any level."""
        found = set(self.topics.matching(text_of(loose(region.filter, region.has_marks))))
        for one in region.but_for:
            found -= set(self.topics.matching(text_of(one)))
        return found

    def such_as(self, right: Right, region: Region) -> tuple[str, int]:
        """The topic with the most publishes about which these lines decide, else the shortest below
        the filter, else the one that mqroute-acl found."""
        for topic in region.most:
            if self.decide(right, region, topic):
                return topic, self.published[topic]
        for topic, words in self.below(right.clients[0], region):
            if self.decide(right, region, topic):
                return words, 0
        return topic_of(right), 0

    def questions(self, rights: list[tuple[Right, Region]]) -> Iterator[Question]:
        """All that `such_as` may ask about these, so that each list is asked once: as much as is
        left where each right before takes its first topic."""
        left = self.left
        for right, region in rights:
            clients = asked_for(right, region)
            cost = 2 * len(clients)
            below = (topic for topic, _ in self.below(right.clients[0], region))
            topics = filter(is_topic, chain(region.most, below))
            for topic in islice(topics, max(0, left // cost)):
                yield from (question(right, one, topic) for one in clients)
            left -= cost

    def below(self, client: Client, region: Region) -> Iterator[tuple[str, str]]:
        """Topics with a level that no line names for each wildcard, and the words for them."""
        parts = [filled(part, client) if region.has_marks else part for part in region.filter]
        deeper = range(1, DEEPEST + 1) if parts[-1] == HASH else (0,)
        begun = [part for part in parts if part != HASH]
        for more in deeper:
            names = [self.fresh if part == PLUS else part for part in [*begun, *[PLUS] * more]]
            yield "/".join(names), "/".join(
                "<level>" if name == self.fresh else level_shown(client, place, name)
                for place, name in enumerate(names))

    def decide(self, right: Right, region: Region, topic: str) -> bool:
        """Whether the lines of the right decide about the topic, if it is one."""
        if not is_topic(topic):
            return False
        clients = asked_for(right, region)
        self.left -= 2 * len(clients)
        return self.left >= 0 and all(
            self.decides(right, question(right, one, topic)) for one in clients)

    def decides(self, right: Right, asked: Question) -> bool:
        old, new = (one.verdict(asked) for one in (self.lists.current, self.lists.proposed))
        lines = number(right.deciding.current), number(right.deciding.proposed)
        return (old.allowed, new.allowed) == (right.change == LOST, right.change != LOST) and (
            number(old.deciding_line()), number(new.deciding_line())) == lines


def asked_for(right: Right, region: Region) -> list[Client]:
    """The first client where the region says it of all, else each."""
    return right.clients if region.in_part else right.clients[:1]


def question(right: Right, one: Client, topic: str) -> Question:
    return Question(one.client, one.user, topic, right.access)


def region_of(grant: Row | None, deny: Row | None) -> Region | None:
    """The filter of the line that grants; of one that the other list denies what both match."""
    if grant is None:
        return None
    wanted, marks = levels(grant.filter), has_marks(grant)
    if deny is None:
        return Region(wanted, marks)
    met = None if marks or has_marks(deny) else meet(wanted, levels(deny.filter))
    return Region(wanted, marks, in_part=True) if met is None else Region(met, False)


def has_marks(row: Row) -> bool:
    return row.is_pattern and MARK.search(row.filter) is not None


def is_one_topic(region: Region) -> bool:
    return not region.has_marks and not any(map(is_wild, region.filter))


class RowsByUser:
    """Rows of which one client is asked few, among lines of thousands of users."""

    def __init__(self, rows: list[Row]) -> None:
        self.rows = rows
        self.patterns = [place for place, row in enumerate(rows) if row.is_pattern]
        self.topics: defaultdict[str | None, list[int]] = defaultdict(list)
        for place, row in enumerate(rows):
            if not row.is_pattern:
                self.topics[row.user].append(place)

    def of(self, client: Client) -> list[Row]:
        """Those that are asked for the client, in their order; of `pattern` lines perhaps."""
        places = [*self.topics.get(client.user, ()),
                  *(place for place in self.patterns
                    if client.user is not None or "%u" not in self.rows[place].filter)]
        return [self.rows[place] for place in sorted(places)]


def loose(wanted: Levels, marked: bool) -> Levels:
    """With any level where a mark is, as nobody knows which it will be."""
    return tuple(PLUS if marked and MARK.search(level) else level for level in wanted)


def narrowed(region: Region, rows: list[Row]) -> list[Levels]:
    """What these rows have of the region; of what one of them covers only that one."""
    found: list[Levels] = []
    wanted = loose(region.filter, region.has_marks)
    for row in rows:
        own = levels(row.filter)
        met = meet(wanted, loose(own, has_marks(row)))
        if met is not None:
            found.append(own if region.has_marks or has_marks(row) else met)
    found = list(dict.fromkeys(found))
    if len(found) > MANY:  # that takes too long
        return found
    return [one for one in found
            if not any(other != one and covers(other, one) for other in found)]


def filled(level: str, client: Client) -> str:
    return MARK.sub(lambda mark: client.client if mark[0] == "%c" else client.user or "", level)


def fresh_names() -> Iterator[str]:
    count = 0
    while True:
        count += 1
        yield f"level-{count}"


def breadth(wanted: str) -> tuple[bool, int]:
    """How much a filter matches, the most first: by its `#`, and by how few levels it names."""
    parts = levels(wanted)
    return parts[-1] != HASH, sum(not is_wild(level) for level in parts)


def is_read_otherwise(one: AccessList) -> bool:
    """Whether our own rules may read a line of the list otherwise than mosquitto's, which takes it:
    at a tab or the like."""
    return bool(set("\t\v\f") & set(Path(one.path).read_text("utf-8")))


def add_scopes(lists: Lists, found: Preview) -> None:
    """To all rights, which are put in order: those first that most publishes are about, then those
    whose filter matches most."""
    if lists.rules != MOSQUITTO and any(map(is_read_otherwise, (lists.current, lists.proposed))):
        return
    scopes = Scopes(lists, found.facts.published)
    for rights in (found.granted, found.taken):
        for right in rights:
            right.scope = scopes.scope(right)
        rights.sort(key=lambda one: (-one.scope.publishes, breadth(one.scope.filter))
                    if one.scope else (0, (True, 0)))
    scopes.exemplify(found.granted + found.taken)
