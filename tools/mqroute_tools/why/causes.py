"""The causes, in the order in which they are looked at, and how they are shown."""
from collections.abc import Callable
from dataclasses import asdict, dataclass, field
from typing import Any

from ..script.access_list import Verdict
from .references import lines_in, resolved

# Of the line, as mqroute refuses it.
REFUSALS = ("ClientId", "NotConnected", "TopicName", "NotAuthorized", "RetainedFull")
# Of a client; of its own subscriptions; of a client that is away.
NO_SESSION, NO_SUBSCRIPTION = "NoSession", "NoSubscription"
NO_LOCAL, MAY_NOT_READ = "NoLocal", "MayNotRead"
QOS_0, QUEUE_FULL = "QoS0", "QueueFull"
# What becomes of a copy that waits.
WAITS, SESSION_ENDED, EXPIRED, WAITED = "Waits", "SessionEnded", "Expired", "Waited"
# Of a member of a group; and of both.
AWAY, TURN = "Away", "Turn"
SENT = "Sent"


@dataclass
class Cause:
    """Why a client was sent the message, or wasn't, by its own subscriptions or by one group."""
    kind: str
    words: str  # what may be said of several clients at once
    facts: str = ""  # and of this one, behind that
    came: int = 0  # the line at which the copy came; 0: it didn't
    group: str | None = None  # $share/NAME/FILTER
    subscribed: list[int] = field(default_factory=list)  # by which lines
    away: int = 0  # the line at which the client left; 0: it is connected
    ended: int = 0  # the line at which its session or its subscription ended
    verdict: Verdict | None = None  # of the list that decides
    details: list[str] = field(default_factory=list)
    concerned: bool = True  # whether a subscription of it matches, or one did that has ended

    def text(self) -> str:
        return self.words + self.facts


@dataclass
class Answer:
    """Of one client: a cause for its own subscriptions, and one for each group."""
    client: str
    causes: list[Cause]

    def got(self) -> bool:
        return any(cause.came for cause in self.causes)


def as_object(client: str, line: int, topic: str, cause: Cause,
              called: Callable[[int], str]) -> dict[str, Any]:
    verdict = cause.verdict
    deny, grant = (verdict.deny, verdict.grant) if verdict else (None, None)
    return {"client": client, "line": line, "topic": topic, "cause": cause.kind,
            "came": cause.came or None, "group": cause.group, "subscribed": cause.subscribed,
            "away": cause.away or None, "ended": cause.ended or None,
            "words": resolved(cause.text(), called),
            "deny": deny and asdict(deny), "grant": grant and asdict(grant),
            "details": [resolved(detail, called) for detail in cause.details]}


def lines_of(line: int, cause: Cause) -> list[int]:
    """All that are named."""
    named = {line, cause.came, cause.away, cause.ended, *cause.subscribed}
    return sorted(named.union(*map(lines_in, [cause.text(), *cause.details])) - {0})
