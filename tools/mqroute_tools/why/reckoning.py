"""Why each client was sent the message of a line, or wasn't: by the definitions, in their order,
beside what mqroute wrote."""
from dataclasses import dataclass
from functools import cache
from typing import Any

from ..common.tables import shown
from ..script.access_list import Question, Verdict
from ..script.output import Block, Command
from ..script.text_faults import name_fault, text_fault
from . import causes, wording
from .access import Access, may
from .causes import Answer, Cause
from .disagreement import Disagreement
from .history import History, Lost, Session, Subscription
from .references import ref
from .runs import QUEUE_ALL, RETAIN_ALL, Runs

Copy = dict[str, Any]
MOST_QUEUED = 1000  # copies that may wait, where no limit is given


@dataclass
class Publish:
    """A publish of a script, with the answer that mqroute gave."""
    line: int
    command: Command
    block: Block

    def __post_init__(self) -> None:
        self.client, self.topic = self.command["client"], self.command["topic"]
        self.qos, self.retain = self.command.get("qos", 0), self.command.get("retain", False)

    def copies(self) -> dict[tuple[str, str | None], Copy]:
        """By client and group."""
        found = self.block.answers()[:-1]
        return {(copy["client"], f"$share/{copy['share']}/{copy['filter']}" if "share" in copy
                 else None): copy for copy in found}


@dataclass
class Way:
    """What a client may be sent the message by: its own subscriptions, or that of a group."""
    client: str
    session: Session
    subscriptions: list[Subscription]
    group: str | None = None

    def __post_init__(self) -> None:
        self.details = [wording.options(one) for one in self.subscriptions]

    def since(self) -> str:
        return f"since {ref(self.session.left)}"

    def cause(self, kind: str, words: str, facts: str = "",
              verdict: Verdict | None = None) -> Cause:
        return Cause(kind, words, facts, group=self.group, away=self.session.left, verdict=verdict,
                     subscribed=[one.line for one in self.subscriptions], details=self.details)


class Reckoning:
    def __init__(self, publish: Publish, history: History, access: Access, runs: Runs,
                 one: str | None) -> None:
        self.publish, self.history, self.access, self.runs = publish, history, access, runs
        self.one = one  # the client that is asked about, or None: all
        self.copies = publish.copies()
        if len(self.copies) != len(publish.block.copies):
            raise self.disagreement("a client is sent two copies where one is due")
        self.served = {group: client for client, group in self.copies if group is not None}
        self.waiting: dict[str, tuple[Cause, int]] = {}  # copies that may wait, and their QoS
        self.order = cache(self.in_turn)

    def answers(self) -> list[Answer]:
        """Of the client that is asked about, or of each that has connected."""
        clients = list(self.history.known) if self.one is None else [self.one]
        if self.publish.block.refused:
            refused = self.refusal()
            return [Answer(client, [refused]) for client in clients]
        ways = {client: self.ways(client) for client in clients}
        self.access.ask_all(self.may_read(way) for own in ways.values() for way in own
                            if self.is_asked(way))
        found = [Answer(client, self.causes(client, own)) for client, own in ways.items()]
        self.look_at_rest()
        self.let_wait(found)
        return found

    def disagreement(self, what: str) -> Disagreement:
        return Disagreement(self.publish.line, what)

    # -- the line is refused

    def refusal(self) -> Cause:
        name = str(self.publish.block.refused)
        reckoned, words, verdict = self.first_refusal()
        if reckoned != name:
            raise self.disagreement(f"it is refused, {name}, and not {reckoned or 'at all'}")
        return Cause(name, f"{ref(self.publish.line)} is refused, {name}: {words}", verdict=verdict)

    def first_refusal(self) -> tuple[str, str, Verdict | None]:
        """By the order of the definition, and why."""
        line, client, topic = self.publish.line, self.publish.client, self.publish.topic
        session, fault = self.history.sessions.get(client), name_fault(topic)
        if text_fault(client):
            return "ClientId", "no client has such an id", None
        if session is None or session.left:
            return "NotConnected", f"{shown(client)}: {self.absence(client)}", None
        if fault:
            return "TopicName", f"{fault}, and isn't a topic name", None
        verdict = self.access.verdict(Question(client, session.user, topic, "write"))
        if not may(verdict):
            words = self.access.words(verdict, session.user)
            return "NotAuthorized", f"{shown(client)} may not write it: {words}", verdict
        limit = self.runs.limits["max-retained"]
        if limit is not None and self.runs.is_accepted(line, RETAIN_ALL):
            return "RetainedFull", f"as many messages are retained as may be: {limit:,}", None
        return "", "", None

    def absence(self, client: str) -> str:
        """Why the client isn't connected."""
        session, ended = self.history.sessions.get(client), self.history.ended.get(client)
        if session is not None:
            return f"away since {ref(session.left)}"
        if ended is not None:
            return f"its session ended at {ref(ended.line)}: {ended.how}"
        return wording.NEVER

    # -- of a client

    def ways(self, client: str) -> list[Way]:
        """By its own subscriptions, and by those of its groups."""
        session, topic = self.history.sessions.get(client), self.publish.topic
        if session is None:
            return []
        own, groups = session.matching(topic, False), session.matching(topic, True)
        found = [Way(client, session, own)] if own else []
        return found + [Way(client, session, [one], one.filter) for one in groups]

    def causes(self, client: str, ways: list[Way]) -> list[Cause]:
        if ways:
            return [self.by_group(way, way.group) if way.group else self.by_own(way)
                    for way in ways]
        session = self.history.sessions.get(client)
        return [self.no_subscription(client, session) if session else self.no_session(client)]

    def may_read(self, way: Way) -> Question:
        return Question(way.client, way.session.user, self.publish.topic, "read")

    def is_asked(self, way: Way) -> bool:
        """Whether its cause needs to know whether the client may read the topic."""
        if (way.client, way.group) in self.copies:
            return self.one is not None
        return not way.session.left if way.group else bool(self.taken(way))

    def lost(self, client: str) -> list[Lost]:
        """The subscriptions that matched and have ended."""
        return [pair for pair in self.history.gone.get(client, {}).values()
                if pair[0].matches(self.publish.topic)]

    def no_session(self, client: str) -> Cause:
        ended = self.history.ended.get(client)
        lost = [pair for pair in self.lost(client) if pair[1] is ended]
        words, facts = wording.no_session(ended, lost)
        return Cause(causes.NO_SESSION, words, facts, subscribed=[one.line for one, _ in lost],
                     ended=ended.line if ended else 0, concerned=bool(lost))

    def no_subscription(self, client: str, session: Session) -> Cause:
        lost = sorted(self.lost(client), key=lambda pair: pair[1].line)[-1:]
        words, facts = wording.no_subscription(lost)
        return Cause(causes.NO_SUBSCRIPTION, words, facts, away=session.left,
                     subscribed=[one.line for one, _ in lost],
                     ended=lost[0][1].line if lost else 0, concerned=bool(lost),
                     details=wording.nearest(session, self.publish.topic))

    def look_at_rest(self) -> None:
        """Each copy for those who are asked about has been explained."""
        for client in (client for client, _ in self.copies if self.one in (None, client)):
            raise self.disagreement(f"{shown(client)} is sent a copy that no subscription explains")

    def by_own(self, way: Way) -> Cause:
        """By a client's own subscriptions: 3.3.4, 3.8.3.1."""
        copy, taken = self.copies.pop((way.client, None), None), self.taken(way)
        if copy is not None:
            return self.sent(way, taken, copy)
        if not taken:
            lines = wording.listed(way.subscriptions)
            return way.cause(causes.NO_LOCAL, f"it published this itself, with No Local: {lines}")
        verdict = self.reads(way)
        if not may(verdict):
            return self.denied(way, verdict)
        if not way.session.left:
            raise self.disagreement(f"{shown(way.client)} is sent no copy, and nothing is in its "
                                    "way")
        granted = max(one.qos for one in taken)
        qos = min(self.publish.qos, granted)
        if qos == 0:
            facts = f" ({way.since()}; {wording.qos(self.publish.qos, granted)})"
            return way.cause(
                causes.QOS_0, "away, and copies of QoS 0 don't wait", facts, verdict)
        cause = way.cause(causes.WAITS, "", f" ({way.since()})", verdict)
        self.waiting[way.client] = cause, qos
        return cause

    def taken(self, way: Way) -> list[Subscription]:
        """But for those with No Local, of what the client published itself."""
        return [one for one in way.subscriptions
                if not one.no_local or way.client != self.publish.client]

    def reads(self, way: Way) -> Verdict | None:
        """What the list says; a detail of its cause, where the client may read the topic."""
        verdict = self.access.verdict(self.may_read(way))
        if may(verdict):
            way.details.append(f"may read it: {self.access.words(verdict, way.session.user)}")
        return verdict

    def denied(self, way: Way, verdict: Verdict | None) -> Cause:
        words = self.access.words(verdict, way.session.user)
        return way.cause(causes.MAY_NOT_READ, f"may not read it: {words}", verdict=verdict)

    def sent(self, way: Way, taken: list[Subscription], copy: Copy) -> Cause:
        """A copy that mqroute wrote."""
        client = shown(way.client)
        if not taken or way.session.left:
            why = f"is away {way.since()}" if taken else "published this with No Local"
            raise self.disagreement(f"{client} is sent a copy, and {why}")
        granted = max(one.qos for one in taken)
        kept = any(one.rap for one in taken)
        flags = min(self.publish.qos, granted), self.publish.retain and kept
        if flags != (copy["qos"], copy["retain"]):
            raise self.disagreement(f"the copy for {client} has QoS {copy['qos']} and RETAIN "
                                    f"{copy['retain']}, not {flags[0]} and {flags[1]}")
        if self.publish.retain:
            way.details.append(wording.retain(kept))
        verdict = self.reads(way) if self.one is not None else None
        if not may(verdict):
            raise self.disagreement(f"{client} is sent a copy, and by mqroute-acl it may not read")
        turn = f"its turn in the group {shown(way.group)}; " if way.group else ""
        found = way.cause(causes.SENT, turn + wording.qos(self.publish.qos, granted),
                          verdict=verdict)
        found.came = self.publish.line
        return found

    # -- of a member of a group

    def by_group(self, way: Way, group: str) -> Cause:
        """4.8.2. Of the members that are connected and may read, the one with the least turn."""
        name = f"the group {shown(group)}"
        copy = self.copies.pop((way.client, group), None)
        if copy is not None:
            return self.sent(way, way.subscriptions, copy)
        if way.session.left:
            return way.cause(causes.AWAY, f"away, and {name} serves members that are connected",
                             f" ({way.since()})")
        verdict = self.reads(way)
        if not may(verdict):
            return self.denied(way, verdict)
        order, served = self.order(group), self.served.get(group)
        before = order[:order.index(way.client)]
        if served is None or served not in before:
            raise self.disagreement(f"{name} serves {shown(served) if served else 'nobody'}, and "
                                    f"it is the turn of {shown(way.client)}")
        way.details.append(f"in turn before it: {', '.join(map(shown, before))}")
        return way.cause(causes.TURN, f"the turn of {shown(served)} in {name}", verdict=verdict)

    def in_turn(self, group: str) -> list[str]:
        """Its members that are connected."""
        found = [(session.subscriptions[group].turn, client)
                 for client, session in self.history.sessions.items()
                 if group in session.subscriptions and not session.left]
        return [client for _, client in sorted(found)]

    # -- of a client that is away

    def let_wait(self, found: list[Answer]) -> None:
        """Whether copies begin to wait: mqroute lets the clients come back at once."""
        away = [answer.client for answer in found if self.is_away(answer.client)]
        waits = self.runs.waits(self.publish.line, self.publish.command, away) if away else set()
        for client in waits - self.waiting.keys():
            raise self.disagreement(f"a copy waits for {shown(client)}, which has no way to one")
        full = [client for client in self.waiting if client not in waits]
        if full:
            room = self.runs.waits(self.publish.line, self.publish.command, full, QUEUE_ALL)
            for client in set(full) - room:
                raise self.disagreement(f"no copy waits for {shown(client)}, and nothing is in its "
                                        "way")
        limit = self.runs.limits["max-queued"]
        count = f"{MOST_QUEUED if limit is None else limit:,}"
        for client in full:
            cause, _ = self.waiting.pop(client)
            cause.kind = causes.QUEUE_FULL
            cause.words = f"away, and its queue is full: {count} may wait"

    def is_away(self, client: str) -> bool:
        session = self.history.sessions.get(client)
        return bool(session and session.left and session.matching(self.publish.topic, False))
