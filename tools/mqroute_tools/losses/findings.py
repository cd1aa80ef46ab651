"""What a comparison of two outputs finds: its rows with their causes, and how JSON has them."""
from collections import Counter
from dataclasses import asdict, dataclass, field
from typing import Any

from ..common.tables import user_shown
from .acl_verdicts import Decided
from .causes import Cause, words

Json = dict[str, Any]


@dataclass
class Copies:
    """The copies of one client and topic. `changed` are those with another QoS, RETAIN
    flag, payload or the like."""
    before: int = 0
    after: int = 0
    lost: int = 0
    gained: int = 0
    changed: int = 0


@dataclass
class Refusals:
    """The lines of one client and topic that are refused. `newly` and `no_longer`
    count by the refusal's name."""
    before: int = 0
    after: int = 0
    newly: Counter[str] = field(default_factory=Counter)
    no_longer: Counter[str] = field(default_factory=Counter)


@dataclass
class Subject:
    """Whom a row is of: a client, or the clients of one user name."""
    name: str | None
    topic: str
    clients: int | None = None  # how many the user name has; None: the name is a client's

    def by_user(self) -> bool:
        return self.clients is not None

    def json(self) -> Json:
        if self.by_user():
            return {"user": self.name, "topic": self.topic, "clients": self.clients}
        return {"client": self.name, "topic": self.topic}


@dataclass
class Place:
    """A line of the script at which a copy differs, or that is refused."""
    line: int
    client: str
    topic: str
    publish: int  # the line of the publish, where that is another; else 0

    def json(self) -> Json:
        found: Json = {"line": self.line, "client": self.client, "topic": self.topic}
        return found | {"publish": self.publish} if self.publish else found


@dataclass
class CauseRow:
    """The copies of one row that have one cause."""
    what: str  # lost, gained or changed
    cause: Cause
    copies: int
    clients: int | None  # as of Subject
    lines: list[Place]  # the first ones
    decided: Decided | None

    def because(self) -> str:
        return words(self.cause, self.what, user_shown(self.cause.user))

    def json(self) -> Json:
        """`because` in words, and what they are made of."""
        cause = self.cause
        found: Json = {"what": self.what, "copies": self.copies}
        if self.clients is not None:
            found["clients"] = self.clients
        found |= {"cause": cause.kind, "because": self.because()}
        if cause.refused:
            found |= {"refused": cause.refused, "newly": cause.newly}
            if cause.kind == "session":
                found["command"] = cause.did
            else:
                found["publisher"] = cause.user
        found["lines"] = [place.json() for place in self.lines]
        return found | {"decided": asdict(self.decided)} if self.decided else found


@dataclass
class CopiesRow:
    subject: Subject
    copies: Copies
    causes: list[CauseRow] | None  # None where they weren't asked for

    def json(self) -> Json:
        found = self.subject.json() | vars(self.copies)
        if self.causes is not None:
            found["causes"] = [cause.json() for cause in self.causes]
        return found


@dataclass
class RefusedRow:
    subject: Subject
    refusals: Refusals
    lines_in_all: int = 0
    lines: list[Place] | None = None  # the first ones; None where they weren't asked for
    decided: Decided | None = None

    def json(self) -> Json:
        found = self.subject.json() | vars(self.refusals)
        if self.lines is not None:
            found |= {"lines_in_all": self.lines_in_all,
                      "lines": [place.json() for place in self.lines]}
        return found | {"decided": asdict(self.decided)} if self.decided else found


@dataclass
class CauseSum:
    """One cause, with what it lost, gained and changed in all rows."""
    because: str
    cause: str
    lost: int
    gained: int
    changed: int


@dataclass
class Totals:
    """Of all copies, also where nothing changes, and of all lines that are refused."""
    before: int
    after: int
    lost: int
    gained: int
    changed: int
    refused_before: int
    refused_after: int
    turns: int | None = None  # copies that another member of a group has; None: not left out

    def json(self) -> Json:
        return {name: value for name, value in vars(self).items() if value is not None}


@dataclass
class Findings:
    by: str | None  # client or user; None where no causes were asked for
    copies: list[CopiesRow]
    causes: list[CauseSum]
    refused: list[RefusedRow]
    totals: Totals

    def json(self) -> Json:
        copies = [row.json() for row in self.copies]
        refused = [row.json() for row in self.refused]
        if self.by is None:
            return {"copies": copies, "refused": refused, "totals": self.totals.json()}
        return {"by": self.by, "copies": copies, "causes": [vars(one) for one in self.causes],
                "refused": refused, "totals": self.totals.json()}
