"""The subscriptions of two scripts, one under old names and one under new ones."""
from collections import defaultdict
from collections.abc import Iterator
from typing import NamedTuple

from ..common.tables import shown
from ..script.output import command_of
from .asking import Question, Verdict, Witness, verdicts
from .filter_words import NOT_ASKED
from .filters import SHARE, Levels, split_share
from .topic_plan import Plan

Key = tuple[str, str]  # a client, and `$share/NAME/` or an empty text
Filters = dict[Levels, int]  # each with its greatest QoS
QOS = (0, 1, 2)
NO_LONGER, NOW = "no longer subscribes to", "subscribes now to"


class Row(NamedTuple):
    whom: str
    words: str
    topic: str
    was: str


def subscriptions(lines: list[bytes]) -> dict[Key, Filters]:
    """What each client subscribes to anywhere in a script."""
    found: defaultdict[Key, Filters] = defaultdict(dict)
    for line in lines:
        command = command_of(line) or {}
        wanted, qos = command.get("filter"), command.get("qos", 0)
        if command.get("do") != "subscribe" or not isinstance(wanted, str) or qos not in QOS:
            continue
        parts = split_share(wanted)
        if parts is not None:
            filters = found[str(command.get("client")), parts[0]]
            filters[parts[1]] = max(qos, filters.get(parts[1], 0))
    return found


def questions(old: list[bytes], new: list[bytes]) -> dict[tuple[Key, int], Question]:
    """For each client, group and QoS what is subscribed to with it or a greater one."""
    sides = subscriptions(old), subscriptions(new)
    found = {}
    for key in dict.fromkeys([*sides[0], *sides[1]]):
        for qos in QOS:
            olds, news = (tuple(wanted for wanted, most in side.get(key, {}).items() if most >= qos)
                          for side in sides)
            found[key, qos] = olds, news
    return found


def rows(plan: Plan, old: list[bytes], new: list[bytes]) -> Iterator[Row]:
    """Of each client and group what differs at the least QoS at which something does."""
    asked = questions(old, new)
    distinct = list(dict.fromkeys(asked.values()))
    said = dict(zip(distinct, verdicts(plan, distinct)))
    shown: set[Key] = set()
    for (key, qos), question in asked.items():
        verdict = said[question]
        if key not in shown and not verdict.is_exact:
            shown.add(key)
            yield from rows_of(key, qos, verdict)


def rows_of(key: Key, qos: int, verdict: Verdict) -> Iterator[Row]:
    client, share = key
    group = f"  group {shown(share.removeprefix(SHARE)[:-1])}" if share else ""
    whom = shown(client) + group + (f"  QoS {qos}" if qos else "")
    if not verdict.asked:
        yield Row(whom, NOT_ASKED, "", "")
    for witness, words in ((verdict.fewer, NO_LONGER), (verdict.more, NOW)):
        if witness is not None:
            yield Row(whom, words, shown(witness.new_topic), was(witness))


def was(witness: Witness) -> str:
    return "" if witness.topic == witness.new_topic else f"which was {shown(witness.topic)}"
