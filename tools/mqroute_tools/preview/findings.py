"""What a preview finds, and how JSON has it."""
from collections.abc import Iterable
from dataclasses import asdict, dataclass, field
from typing import Any

from ..losses.findings import Place, Totals
from ..plan.kept import Kept
from ..plan.unused import Proposal
from ..script.access_list import Line
from .gathered_topics import Topics
from .in_force import Check
from .reload import Reload
from .script_facts import ScriptFacts

Json = dict[str, Any]
GAINED, LOST = "gained", "lost"


@dataclass
class Deciding:
    """The line of each list that decides; None where no line allows it."""
    current: Line | None
    proposed: Line | None


@dataclass
class Cause:
    """Messages of one user, or refused publishes, that have one cause."""
    what: str  # lost, gained, changed; refused, accepted
    count: int
    because: str
    deciding: Deciding | None  # None where no list was asked
    lines: list[Place]  # the first of the script
    command: str | None = None  # of mqroute-why, on the first of these lines
    log: str = ""  # the file and line of a log for the first of them, where the script is of one

    def json(self) -> Json:
        first = self.lines[0]
        return {"what": self.what, "count": self.count, "because": self.because,
                "deciding": asdict(self.deciding) if self.deciding else None,
                "line": first.line, "client": first.client, "why": self.command,
                "log": self.log or None,
                "lines": [place.json() for place in self.lines]}


@dataclass
class UserRow:
    """The messages of the clients of one user name, or of those without one."""
    user: str | None
    clients: int = 0  # for which something changes
    before: int = 0
    after: int = 0
    lost: int = 0
    gained: int = 0
    changed: int = 0  # another QoS, RETAIN flag, payload or expiry
    topics_lost: list[Topics] = field(default_factory=list)
    topics_gained: list[Topics] = field(default_factory=list)
    causes: list[Cause] = field(default_factory=list)

    def share_lost(self) -> float:
        return self.lost / self.before if self.before else 0.0

    def json(self) -> Json:
        return asdict(self) | {
            "topics_lost": [one.json() for one in self.topics_lost],
            "topics_gained": [one.json() for one in self.topics_gained],
            "causes": [cause.json() for cause in self.causes]}


@dataclass
class RefusedRow:
    """The publishes of the clients of one user name of which one list alone lets them be."""
    user: str | None
    clients: int = 0
    refused: int = 0  # by the proposed list alone
    accepted: int = 0
    topics: list[Topics] = field(default_factory=list)
    causes: list[Cause] = field(default_factory=list)

    def json(self) -> Json:
        return asdict(self) | {"topics": [one.json() for one in self.topics],
                               "causes": [cause.json() for cause in self.causes]}


@dataclass
class Client:
    """Of whom a right is: `placeholders` are those levels of the client id, the user name and the
    topic that stand for any other."""
    user: str | None
    client: str
    placeholders: list[str]

    def is_any_user(self) -> bool:
        return self.user is not None and self.stands_for_others(self.user)

    def stands_for_others(self, text: str) -> bool:
        return any(level in self.placeholders for level in text.split("/"))


@dataclass
class Scope:
    """What a right is of."""
    filter: str  # of the line that grants it; of what the other list denies, what both match
    but_for: list[str]  # of what these match nothing is said
    in_part: bool  # some topics of the filter, and it isn't known which
    publishes: int  # of the script, to topics of it
    topic: str = ""  # one of it, with what stands for others in the place of their levels
    published: int = 0  # how often the script publishes to that

    def json(self) -> Json:
        such_as = {"topic": self.topic, "publishes": self.published} if self.topic else None
        return {"filter": self.filter, "but_for": self.but_for, "in_part": self.in_part,
                "such_as": such_as, "publishes": self.publishes}


@dataclass
class Right:
    """One difference as `mqroute-acl compare` has it."""
    change: str  # gained or lost
    access: str  # read or write
    topic: str
    deciding: Deciding
    clients: list[Client]
    new_topic: str | None = None  # by a plan, with the rule that decides; None without one
    rule: Line | None = None
    known: list[str] = field(default_factory=list)  # users whom the lists name
    others: list[str] | None = None  # and all others that there are; None: there may be any
    scope: Scope | None = None  # none by a plan
    unused: bool | None = None  # by a plan: no topic of the script has such a name; None: not known
    proposal: Proposal | None = None  # the line of a plan that says so

    def is_new_write(self) -> bool:
        return self.change == GAINED and self.access == "write"

    def json(self) -> Json:
        found = {"access": self.access, "topic": self.topic, **asdict(self.deciding),
                 "clients": [asdict(client) for client in self.clients]}
        if self.new_topic is None:
            return found | (self.scope.json() if self.scope else {})
        return found | {"new_topic": self.new_topic, "rule": self.rule and asdict(self.rule),
                        "unused": self.unused, "none": self.proposal and self.proposal.json()}


@dataclass
class Subscription:
    """One that can receive nothing, with the line of the script that subscribes."""
    line: int
    client: str
    user: str | None
    filter: str
    was: str | None = None  # under old names, with a plan

    def json(self) -> Json:
        found = asdict(self)
        return found if self.was is not None else {
            name: value for name, value in found.items() if name != "was"}


@dataclass
class Carried:
    """What a plan can't carry over as it is: a subscription that needs several filters or another
    look, a topic without a new name."""
    line: int
    words: str
    was: str | None  # a subscription, and what it becomes
    becomes: list[str]
    clients: list[str]


@dataclass
class KeptNames:
    """What the broker has under old names when the script ends, and the file that moves what is
    retained, where that stays."""
    kept: Kept
    file: str | None

    def hint(self) -> str:
        """How the retained messages are moved; empty where none is."""
        if not self.kept.renamed():
            return ""
        does = "moves" if self.kept.moved() else "clears"
        if self.file is None:
            return f"With --save FOLDER a script stays that {does} them."
        return f"{self.file} is a script that {does} them."

    def json(self) -> Json:
        return self.kept.json() | {"script": self.file if self.kept.renamed() else None}


@dataclass
class Remark:
    """A remark of `mqroute-acl lint`. Of a whole list it has no line."""
    kind: str
    line: int | None
    text: str | None
    words: str


@dataclass
class Preview:
    current: str
    proposed: str
    sources: list[str]
    rules: str
    script: str | None  # under which name the script can be read later
    users: list[UserRow]
    refused: list[RefusedRow]
    granted: list[Right]
    taken: list[Right]
    subscriptions: list[Subscription]
    remarks: list[Remark]
    copies: Totals
    facts: ScriptFacts = field(default_factory=ScriptFacts)
    check: Check | None = None  # whether the current list was in force; None: a script was given
    said: list[str] = field(default_factory=list)  # of what the answer is, and leaves out
    conf: Json | None = None  # the configuration, and what is in force by it
    reload: Reload = field(default_factory=lambda: Reload(""))  # of the proposed list
    could_keep: bool = False  # whether with --save the causes would have commands
    plan: str | None = None
    carried: list[Carried] = field(default_factory=list)
    kept: KeptNames | None = None  # with a plan

    def changes(self) -> bool:
        """Whether anything does; remarks don't count."""
        return bool(self.users or self.refused or self.granted or self.taken
                    or self.subscriptions)

    def losing(self) -> list[UserRow]:
        return [row for row in self.users if row.lost]

    def gaining(self) -> list[UserRow]:
        return [row for row in self.users if row.gained]

    def causes(self) -> list[Cause]:
        """Of messages, then of refusals."""
        return ([cause for row in self.users for cause in row.causes]
                + [cause for row in self.refused for cause in row.causes])

    def totals(self) -> dict[str, int]:
        return self.copies.json() | {
            "users_losing": len(self.losing()), "users_gaining": len(self.gaining()),
            "granted": len(self.granted), "taken": len(self.taken),
            "subscriptions": len(self.subscriptions)}

    def json(self, summary: str) -> Json:
        by_plan = {"plan": self.plan, "carried": as_objects(self.carried),
                   "kept": self.kept and self.kept.json()} if self.plan else {}
        return {"current": self.current, "proposed": self.proposed, "sources": self.sources,
                "rules": self.rules, "in_force": self.check and self.check.json(),
                "conf": self.conf, "said": self.said,
                "clients": self.facts.clients,
                "publishes": self.facts.publishes,
                "users": [row.json() for row in self.users],
                "refused": [row.json() for row in self.refused],
                "granted": [right.json() for right in self.granted],
                "taken": [right.json() for right in self.taken],
                "subscriptions": [one.json() for one in self.subscriptions],
                "remarks": as_objects(self.remarks),
                "reload": self.reload.words(),
                **by_plan, "totals": self.totals(), "summary": summary}


def as_objects(rows: Iterable[Remark | Carried]) -> list[Json]:
    return [asdict(row) for row in rows]
