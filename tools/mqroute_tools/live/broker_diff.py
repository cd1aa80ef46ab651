"""What a broker's answer to one line of a script has in common with mqroute's."""
import json
from collections import defaultdict
from collections.abc import Iterable, Iterator, Mapping
from dataclasses import dataclass, field
from typing import NamedTuple

from ..common.messages import counted
from ..common.texts import escaped
from ..script.output import Block, Command, Key, read_json
from ..script.sessions import Sessions

EXPIRY_SLACK = 2  # seconds
NOT_AUTHORIZED = 135  # the reason code of what mqroute refuses as NotAuthorized
LONGEST_SHOWN = 60  # characters of a payload
NO_SUBSCRIBERS = 16  # which a broker may leave at 0 (3.4.2.1)


class Copy(NamedTuple):
    client: str
    topic: str
    qos: int
    retain: bool
    payload: str
    ids: list[int]
    expiry: int | None
    group: str = ""  # the shared subscription that it is for; the broker doesn't say it
    late: int = 0  # seconds that the broker's may have lost of the interval beside the script's

    def resembles(self, other: "Copy") -> bool:
        """Whether all is the same but for the group, and a little of the interval."""
        mine, theirs = (copy._replace(expiry=None, group="", late=0) for copy in (self, other))
        return mine == theirs and are_near(self.expiry, other.expiry, self.late)

    def __str__(self) -> str:
        return str(together([self]))


def shown(payload: str) -> str:
    more = len(payload) - LONGEST_SHOWN
    if more <= 0:
        return json.dumps(payload)
    return f"{json.dumps(payload[:LONGEST_SHOWN])} and {counted(more, 'characters more')}"


def are_near(expiry: int | None, other: int | None, late: int = 0) -> bool:
    """Whether the other one is the same, but for a little, and for what it may have lost."""
    if expiry is None or other is None:
        return expiry == other
    return expiry - late - EXPIRY_SLACK <= other <= expiry + EXPIRY_SLACK


@dataclass
class Joined:
    """All that one client got of one topic, or of one message of it, for one line."""
    qos: int = 0
    retain: bool = False
    ids: list[int] = field(default_factory=list)
    payloads: set[str] = field(default_factory=set)
    expiry: int | None = None
    late: int = 0
    copies: list[Copy] = field(default_factory=list)

    def add(self, copy: Copy) -> None:
        self.qos = max(self.qos, copy.qos)
        self.retain = self.retain or bool(copy.retain)
        self.ids = sorted(self.ids + copy.ids)
        self.payloads.add(copy.payload)
        self.expiry = copy.expiry
        self.late = max(self.late, copy.late)
        self.copies.append(copy)

    @property
    def count(self) -> int:
        return len(self.copies)

    def agrees(self, other: "Joined") -> bool:
        mine = (self.qos, self.retain, self.ids, self.payloads)
        return (are_near(self.expiry, other.expiry, self.late)
                and mine == (other.qos, other.retain, other.ids, other.payloads))

    def has_same_groups(self, other: "Joined") -> bool:
        """Whether each copy of a group is among the others, and the rest joined is there too: no
        copy of a group is joined with others."""
        rest = list(other.copies)
        for copy in self.copies:
            same = [it for it in rest if copy.group and copy.resembles(it)]
            if copy.group and not same:
                return False
            if same:
                rest.remove(same[0])
        return together(copy for copy in self.copies if not copy.group).agrees(together(rest))

    def one_by_one(self) -> str:
        return "; ".join(sorted(map(str, self.copies)))

    def __str__(self) -> str:
        parts = [f"qos {self.qos}", f"retain {str(self.retain).lower()}",
                 "payload " + ", ".join(map(shown, sorted(self.payloads)))]
        parts += [f"ids {self.ids}"] if self.ids else []
        parts += [f"expiry {self.expiry}"] if self.expiry is not None else []
        return ", ".join(parts)


def joined(copies: Iterable[Copy]) -> Mapping[Key, Mapping[str, Joined]]:
    """By client and topic, then by payload: two messages may differ in RETAIN and interval."""
    found: defaultdict[Key, defaultdict[str, Joined]] = defaultdict(lambda: defaultdict(Joined))
    for copy in copies:
        found[copy.client, copy.topic][copy.payload].add(copy)
    return found


def together(messages: Iterable[Copy]) -> Joined:
    whole = Joined()
    for copy in messages:
        whole.add(copy)
    return whole


Pair = tuple[Key, Joined | None, Joined | None]


def pairs(ours: list[Copy], theirs: list[Copy]) -> Iterator[Pair]:
    """What to compare: payload by payload where both sides have the same, else all of a topic."""
    want, got = joined(ours), joined(theirs)
    for key in sorted(want.keys() | got.keys()):
        mine, other = want.get(key, {}), got.get(key, {})
        if mine.keys() == other.keys():
            yield from ((key, mine[payload], other[payload]) for payload in sorted(mine))
        else:
            here = [copy for copy in ours if (copy.client, copy.topic) == key]
            there = [copy for copy in theirs if (copy.client, copy.topic) == key]
            yield key, together(here) if here else None, together(there) if there else None


def copies_of(block: Block) -> list[Copy]:
    return [Copy(c["client"], c["topic"], c["qos"], c["retain"], c["payload"], c.get("ids", []),
                 c.get("expiry"), f"$share/{c['share']}/{c['filter']}" if "share" in c else "")
            for c in map(read_json, block.copies)]


class Acknowledged(NamedTuple):
    """What the broker's CONNACK, SUBACK, UNSUBACK, PUBACK or PUBREC says; None
    where there was none."""
    reason: int | None = None
    present: bool | None = None


def both(head: str, mine: object, other: object) -> list[str]:
    return [escaped(text) for text in (
        f"   {head}", f"      mqroute: {mine}", f"      broker:  {other}")]


def different_copies(ours: list[Copy], theirs: list[Copy], sessions: Sessions) -> list[str]:
    """What differs of the copies, as texts to print. A broker may send one for each
    subscription, joined here."""
    found: list[str] = []
    for key, mine, other in pairs(ours, theirs):
        head = f"{key[0]} {key[1]}"
        if mine is None or other is None or not mine.agrees(other):
            found += both(head, mine or "nothing", other or "nothing")
        elif not mine.count <= other.count <= mine.count * sessions.spread(*key):
            found += both(head, counted(mine.count, "copies"), counted(other.count, "copies"))
        elif not mine.has_same_groups(other):
            found += both(f"{head}, copy by copy", mine.one_by_one(), other.one_by_one())
    return found


def different_order(ours: list[Copy], theirs: list[Copy]) -> list[str]:
    """What waited for a client has to come in its order, of each QoS (4.6); repeats are of
    overlapping subscriptions."""
    found = []
    common = {(c.client, c.qos) for c in ours} & {(c.client, c.qos) for c in theirs}
    for client, qos in sorted(common):
        here, there = ([(c.topic, c.payload) for c in side if (c.client, c.qos) == (client, qos)]
                       for side in (ours, theirs))
        here, there = (list(dict.fromkeys(messages)) for messages in (here, there))
        if here != there and sorted(here) == sorted(there):
            shown = [", ".join(f"{topic} {json.dumps(payload)}" for topic, payload in messages)
                     for messages in (here, there)]
            found += both(f"{client} order", *shown)
    return found


def different_reasons(command: Command, block: Block, said: Acknowledged, present: bool,
                      greatest_qos: int = 2) -> list[str]:
    found = []
    if said.present is not None and said.present != present:
        found.append(f"   session present: mqroute {int(present)}, broker {int(said.present)}")
    ours = NOT_AUTHORIZED if block.refused else block.reason
    if command["do"] == "subscribe" and ours is not None:
        ours = min(ours, greatest_qos)
    free = command["do"] == "publish" and (ours, said.reason) == (NO_SUBSCRIBERS, 0)
    if said.reason is not None and said.reason != ours and not free:
        found.append(f"   reason: mqroute {ours}, broker {said.reason}")
    return found
