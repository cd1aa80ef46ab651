"""One line of the report on a log: the copies of one client and topic that differ at a step, or a
publish that one side alone refused."""
from dataclasses import dataclass
from typing import Any

from ..common.texts import in_quotes
from ..script.output import Key
from .steps import Copy, Flat, copy_of


def shown(copies: list[Copy]) -> str:
    return ", ".join(map(str, sorted(copies) if len(copies) > 1 else copies)) or "none"


def flags(copies: list[Copy]) -> list[tuple[int, int]]:
    found = [(copy.qos, copy.retain) for copy in copies]
    return sorted(found) if len(found) > 1 else found


def differ(copies: list[Copy], others: list[Copy]) -> bool:
    """In their number, QoS or RETAIN."""
    return len(copies) != len(others) or flags(copies) != flags(others)


@dataclass(slots=True, frozen=True)
class Refusal:
    """A publish that the broker alone refused, or mqroute alone."""
    kind: str
    place: int
    key: Key

    def copies(self) -> int:
        return 0

    def flat(self) -> Flat:
        return self.kind, self.place, self.key

    def __str__(self) -> str:
        client, topic = map(in_quotes, self.key)
        return f"{self.kind}: line {self.place}: {client} {topic}"


@dataclass(slots=True)
class Line:
    """One line of the report; its kind may be known only later."""
    place: int
    key: Key
    theirs: list[Copy]
    ours: list[Copy]
    kind: str = ""  # none: it is not printed
    last: int = 0  # where the last of the copies was sent that came late
    number: int = 0  # its own in the report

    def differs(self) -> bool:
        return differ(self.theirs, self.ours)

    def copies(self) -> int:
        """How many copies it is about."""
        return max(len(self.theirs), len(self.ours))

    def flat(self) -> Flat:
        theirs, ours = ([(copy.qos, copy.retain, copy.shared, copy.size) for copy in side]
                        for side in (self.theirs, self.ours))
        return self.place, self.key, theirs, ours, self.kind, self.last

    def __str__(self) -> str:
        client, topic = map(in_quotes, self.key)
        late = f" (by line {self.last})" if self.last else ""
        return (f"{self.kind}: line {self.place}: {client} {topic}: "
                f"broker {shown(self.theirs)}{late}; mqroute {shown(self.ours)}")


def line_of(place: int, key: Key, theirs: list[Flat], ours: list[Flat], *more: Any) -> Line:
    """From what `flat` gave."""
    broker, mqroute = ([copy_of(*copy) for copy in side] for side in (theirs, ours))
    return Line(place, key, broker, mqroute, *more)
