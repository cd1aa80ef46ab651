"""Copies that waited for a client, and come when it connects again: which publish each is
of, and why one is missing."""
from collections import Counter, defaultdict

from ..script.output import Block, read_json
from .causes import AFTER, BEFORE, QUEUE, READER, UNKNOWN, Cause, Found, Queues
from .history import Entry, History, Left


class QueuedCopies:
    """What one connect was answered in both runs.

    While a client is away its subscriptions don't change: where one copy of a topic waited, each
    accepted publish of the topic with QoS 1 or 2 was to wait, if the client might read it and the
    queue wasn't full. A queue only grows.
    """

    def __init__(self, history: History, queues: Queues, client: str,
                 blocks: tuple[Block, Block]) -> None:
        self.history, self.queues, self.client = history, queues, client
        self.left: Left | None = None if history.clocks_differ else history.left.get(client)
        self.counts = [len(block.copies) for block in blocks]
        self.payloads: list[defaultdict[str, list[int]]] = [defaultdict(list), defaultdict(list)]
        for run, block in enumerate(blocks):
            for copy in map(read_json, block.copies):
                self.payloads[run][copy["topic"]].append(hash(copy["payload"]))
        self.origins: dict[str, tuple[list[Entry], list[Entry]] | None] = {}
        self.expiring = 0  # publishes with an expiry while the client was away
        if self.left:
            topics = sorted(self.payloads[BEFORE].keys() | self.payloads[AFTER].keys())
            self.origins = {topic: self.origin(topic, self.left) for topic in topics}
            self.expiring = history.expiring - self.left.expiring
        self.newest = [self.newest_in(run) for run in (BEFORE, AFTER)]

    def steady(self) -> bool:
        """No access list was set while the client was away, so that its rights stayed."""
        return self.left is not None and self.left.lists == self.history.lists

    def origin(self, topic: str, left: Left) -> tuple[list[Entry], list[Entry]] | None:
        """The publishes that the copies of a topic are of, in each run; None
        where that can't be shown."""
        sent = [e for e in self.history.log.since(topic, left.line)
                if not self.history.over(e.deadline)]
        before, after = (
            self.placed([e for e in sent if e.accepted(run)], self.payloads[run][topic])
            for run in (BEFORE, AFTER))
        return None if before is None or after is None else (before, after)

    def placed(self, sent: list[Entry], payloads: list[int]) -> list[Entry] | None:
        """The publishes that came of those that were sent, by what they say: the first that
        can be, if no others can."""
        first = taken(sent, payloads)
        if self.steady():  # a part of them only where the queue was full, and then the first ones
            return first if first == sent[:len(payloads)] else None
        last = taken(sent[::-1], payloads[::-1])
        return first if first is not None and last is not None and first == last[::-1] else None

    def newest_in(self, run: int) -> int:
        return max((e.line for both in self.origins.values() if both for e in both[run]), default=0)

    def of(self, topic: str) -> list[Found]:
        """What differs, of one topic. Empty where it can't be shown."""
        both = self.origins.get(topic)
        if not both:
            return []
        gone, come = ([e for e in both[run] if e not in both[1 - run]] for run in (BEFORE, AFTER))
        same = Counter(e.payload for e in gone) & Counter(e.payload for e in come)
        gone, come = without(gone, same), without(come, same)
        lost = [Found("lost", self.missing(topic, e, AFTER), e.line) for e in gone]
        gained = [Found("gained", self.missing(topic, e, BEFORE), e.line) for e in come]
        pairs = min(len(lost), len(gained))
        changed = [of_two(*pair) for pair in zip(lost, gained)]
        return changed + lost[pairs:] + gained[pairs:]

    def missing(self, topic: str, entry: Entry, run: int) -> Cause:
        """Why the copy of a publish is missing in a run."""
        if entry.cause:
            return entry.cause
        if entry.line < self.newest[run]:
            return READER  # a later copy found room
        most = self.counts[run] + self.expiring
        may = None
        if self.steady():
            may = (True if self.payloads[run][topic]
                   else self.history.rights.may_read(self.client, topic, run))
        if may:
            self.queues.full_at(run, most)
        if may is None:
            return Cause("waited", run=run, least=self.counts[run], most=most)
        return QUEUE if may else READER


def of_two(lost: Found, gained: Found) -> Found:
    """One change of a copy that is lost and one that is gained."""
    found = (one for one in (lost, gained) if one.cause.kind == "publisher")
    return next(found, Found("", UNKNOWN))._replace(what="changed")


def taken(sent: list[Entry], payloads: list[int]) -> list[Entry] | None:
    """For each payload the next publish that has it; None where one has none."""
    found, rest = [], iter(sent)
    for payload in payloads:
        entry = next((e for e in rest if e.payload == payload), None)
        if entry is None:
            return None
        found.append(entry)
    return found


def without(entries: list[Entry], taken_out: Counter[int]) -> list[Entry]:
    """Those that are left when so many of each payload are taken out."""
    out, found = Counter(taken_out), []
    for entry in entries:
        if out[entry.payload]:
            out[entry.payload] -= 1
        else:
            found.append(entry)
    return found
