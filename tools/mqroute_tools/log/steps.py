"""One step of a log: its commands, and what the broker and mqroute did then."""
from collections import defaultdict
from collections.abc import Mapping, Set
from dataclasses import dataclass, field
from functools import lru_cache
from typing import Any, NamedTuple

from ..script.output import Command, Key
from .clients import Inferred
from .mosquitto_log import Publish

Flat = tuple[Any, ...]  # a step, or a line of a report, of values that marshal knows


@dataclass(order=True, slots=True, frozen=True)
class Copy:
    qos: int
    retain: int
    shared: bool = False  # by a group; the log doesn't show it
    size: int = field(default=0, compare=False)

    def __str__(self) -> str:
        return f"q{self.qos} r{self.retain}" + (" of a group" if self.shared else "")


# a few copies come again and again: one object each
copy_of = lru_cache(1 << 12)(Copy)


class Event(NamedTuple):
    """What a line of the log says of a client's copies."""
    place: int
    client: str
    copy: Publish | None = None  # None: it acknowledged one, and nothing is held back any more
    released: bool = False  # it stands right behind an acknowledgement of this client
    apart: str = ""  # the kind of a copy that mqroute never has


class Side:
    """The copies, and the publishes refused, of the broker or of mqroute, of one step."""
    __slots__ = ("copies", "refused")

    def __init__(self) -> None:
        self.copies: defaultdict[Key, list[Copy]] = defaultdict(list)
        self.refused: list[Key] = []


# Most steps have nothing of these, and so have them in common.
NOBODY: frozenset[str] = frozenset()
NO_FILTERS: Mapping[str, list[str]] = {}
NOT_FLYING: Mapping[str, bool] = {}


class Step:
    """The commands of one line of the log, and what the broker did until the next ones."""
    __slots__ = ("place", "commands", "events", "broker", "mqroute", "shared", "old_protocol",
                 "renamed", "flying", "of_group")

    def __init__(self, place: int) -> None:
        self.place = place
        self.commands: list[Command] = []
        self.events: list[Event] = []
        self.broker, self.mqroute = Side(), Side()
        self.shared = NO_FILTERS  # who resumes: filters of its groups
        self.old_protocol: Set[str] = NOBODY  # receivers that speak MQTT 3
        self.renamed = False  # its publish was received under another user name
        self.flying = NOT_FLYING  # in flight: as many as may be?
        self.of_group = False  # mqroute has a copy of a group

    def about(self, key: Key) -> "Step":
        """What of it names the kind of one client's copies of one topic: a step with a thousand
        receivers may be kept for one of them."""
        one = Step(self.place)
        one.commands, one.shared, one.of_group = self.commands, self.shared, self.of_group
        one.old_protocol = self.old_protocol & {key[0]} or NOBODY
        for side, whole in ((one.broker, self.broker), (one.mqroute, self.mqroute)):
            side.copies[key] = whole.copies[key]
        return one

    def flat(self) -> Flat:
        """As it was read of a log, of plain values alone, for another process or a file."""
        commands = [(command if type(command) is dict else dict(command), type(command) is Inferred)
                    for command in self.commands]
        events = [(place, client, None if copy is None else tuple(copy), released, apart)
                  for place, client, copy, released, apart in self.events]
        return (self.place, commands, events, self.broker.refused, self.shared, self.old_protocol,
                self.renamed, self.flying)

    def __reduce__(self) -> tuple[object, ...]:
        return step_of, (self.flat(),)


def step_of(flat: Flat) -> Step:
    """From what `flat` gave."""
    place, commands, events, refused, shared, old_protocol, renamed, flying = flat
    step, new = Step(place), tuple.__new__
    step.commands = [Inferred(command) if inferred else command for command, inferred in commands]
    # as Event(..) makes them, by one call less
    step.events = [new(Event, (at, client, None if copy is None else new(Publish, copy), *more))
                   for at, client, copy, *more in events]
    step.broker.refused, step.shared, step.old_protocol, step.renamed, step.flying = (
        refused, shared, old_protocol, renamed, flying)
    return step
