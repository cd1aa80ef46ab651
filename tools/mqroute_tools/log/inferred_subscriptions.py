"""What the broker sent to clients whose subscriptions are older than the log, and
the rule that finds them."""
from array import array
from bisect import bisect_left
from collections import Counter
from collections.abc import Iterable, Iterator
from itertools import chain
from typing import NamedTuple

from ..script.output import Command
from ..script.topics import TopicTree, matches
from .mosquitto_log import Publish

SEVERAL = 3  # topics that a filter with wildcards has to stand for
LOOKED_AT = 2_000  # topics of a client's from which filters are made
DEEPEST = 10  # levels in which wildcards are tried
PUBLISHERS = 4  # of a topic that are remembered
MOST_WORDS = 100  # filters of a client's own that are tried


class Published:
    """When each topic was published: numbers of publishes, in the order of the log."""

    def __init__(self) -> None:
        self.count = 0
        self.tree = TopicTree()
        self.times: dict[str, array[int]] = {}
        # of each topic the first few, with their user names
        self.publishers: dict[str, dict[str, str | None]] = {}

    def add(self, topic: str, client: str, user: str | None) -> None:
        if topic not in self.times:
            self.times[topic] = array("Q")
            self.publishers[topic] = {}
            self.tree.add(topic)
        if len(self.publishers[topic]) < PUBLISHERS:
            self.publishers[topic].setdefault(client, user)
        self.times[topic].append(self.count)
        self.count += 1

    def times_of(self, topic: str) -> int:
        return len(self.times.get(topic, ()))

    def within(self, topic: str, spans: Iterable[tuple[int, int]]) -> int:
        """How often a topic was published in these spans."""
        times = self.times.get(topic)
        return (sum(bisect_left(times, end) - bisect_left(times, start) for start, end in spans)
                if times else 0)


class Sent:
    """The copies of one topic that a client was sent."""
    __slots__ = ("count", "at", "qos", "best", "lowered", "rap", "open")

    def __init__(self) -> None:
        self.count = 0  # publishes of which it got a copy
        self.at = 0  # how many publishes of the topic there were at the last of them
        self.qos = 0
        # QoS of the copies of the last publish: overlapping subscriptions may give several
        self.best = -1
        # publishes whose best copy had QoS 0 or 1, and that had a greater one: the subscription's
        self.lowered = [0, 0]
        self.rap = False
        self.open = False  # no subscription in the log shows why


def generalised(topic: str) -> set[str]:
    """The filters with one wildcard or two that match a topic; `#` stands behind the others."""
    levels = topic.split("/")[:DEEPEST]
    first = 1 if topic.startswith("$") else 0
    found: set[str] = set()
    for i in range(first, len(levels)):
        one = [*levels[:i], "+", *levels[i + 1:]]
        found.add("/".join([*levels[:i], "#"]))
        found |= {"/".join([*one[:j], "#"]) for j in range(i + 1, len(levels) + 1)}
        if topic.count("/") < DEEPEST:
            found.add("/".join(one))
            found |= {"/".join([*one[:j], "+", *one[j + 1:]]) for j in range(i + 1, len(levels))}
    return found


def generality(name: str) -> tuple[int, int, bool]:
    """Less of a filter with more levels that aren't wildcards, with fewer
    wildcards, and without `#`."""
    levels = name.split("/")
    wildcards = levels.count("+") + levels.count("#")
    return wildcards - len(levels), wildcards, "#" in levels


class Inferred(NamedTuple):
    """A subscription that was there before the log began."""
    name: str
    qos: int
    rap: bool


class Evidence:
    """Of one client's session that is older than the log."""

    def __init__(self, start: int, away: bool) -> None:
        self.away = away  # when the log began
        self.spans: list[tuple[int, int]] = []  # of the publishes during its connections
        self.since: int | None = start
        self.sent: dict[str, Sent] = {}
        self.words: dict[str, None] = {}  # filters that the client names itself
        self.found: list[Inferred] = []

    def leave(self, now: int) -> None:
        if self.since is not None:
            self.spans.append((self.since, now))
            self.since = None

    def until(self, now: int) -> list[tuple[int, int]]:
        return self.spans + ([(self.since, now)] if self.since is not None else [])

    def say(self, name: str) -> None:
        if len(self.words) < MOST_WORDS and not name.startswith("$share/"):
            self.words[name] = None

    def add(self, copy: Publish, times: int, live: Command | None, explained: bool,
            counted: bool) -> None:
        """A copy, of a topic that was published so many times; `live` is the publish that has just
        been routed, if it is of that."""
        sent = self.sent.setdefault(copy.topic, Sent())
        if counted and sent.at < times:
            sent.count, sent.at, sent.best = sent.count + 1, times, -1
        if explained:
            return
        sent.open = True
        sent.qos = max(sent.qos, copy.qos)
        sent.rap = sent.rap or bool(copy.retain)
        if live and copy.qos > sent.best:
            if 0 <= sent.best < live.get("qos", 0):
                sent.lowered[sent.best] -= 1
            if copy.qos < live.get("qos", 0):
                sent.lowered[copy.qos] += 1
            sent.best = copy.qos

    # -- the rule

    def infer(self, published: Published, under: str | None = None) -> list[Inferred]:
        """Subscriptions for the topics that nothing explains, or for those that `under` matches,
        which the client has just given up: first filters that the client names itself, those that
        stand for most first; then filters with one wildcard that stand for several topics; then the
        topics. None matches a topic that was published while the client was connected, and that it
        wasn't sent."""
        spans = self.until(published.count)
        left = {t for t, sent in self.sent.items()
                if sent.open and (under is None or matches(under, t))}
        tree = TopicTree()
        for topic in left:
            tree.add(topic)
        found: list[Inferred] = []
        tried = self.names(left) if under is None else [(under, 1)]
        for name, wanted in chain(tried, ((t, 1) for t in sorted(left))):
            covered = [t for t in tree.matching(name) if t in left]
            if (len(covered) >= wanted and (name in left or self.fits(covered))
                    and not self.withheld(name, spans, published)):
                found.append(self.subscription(name, covered))
                left.difference_update(covered)
                for topic in covered:
                    self.sent[topic].open = False
        return found

    def names(self, left: set[str]) -> Iterator[tuple[str, int]]:
        """Filters to try, in order, each with the number of topics that it has to stand for."""
        for name in sorted(self.words, key=lambda name: -sum(matches(name, t) for t in left)):
            yield name, 1
        count: Counter[str] = Counter()
        for topic in sorted(left)[::len(left) // LOOKED_AT + 1]:
            count.update(generalised(topic))
        several = [name for name, times in count.items() if times >= SEVERAL]
        for name in sorted(several, key=lambda name: (-count[name], generality(name), name)):
            yield name, SEVERAL

    def fits(self, covered: list[str]) -> bool:
        """Whether one QoS explains all copies."""
        qos = max(self.sent[t].qos for t in covered)
        return not any(times for t in covered
                       for lower, times in enumerate(self.sent[t].lowered) if lower != qos)

    def withheld(self, name: str, spans: list[tuple[int, int]], published: Published) -> bool:
        """Whether the client wasn't sent some publish of a topic that the filter matches."""
        for topic in published.tree.matching(name):
            sent = self.sent.get(topic)
            if published.within(topic, spans) > (sent.count if sent else 0):
                return True
        return False

    def subscription(self, name: str, covered: list[str]) -> Inferred:
        return Inferred(name, max(self.sent[t].qos for t in covered),
                        any(self.sent[t].rap for t in covered))
