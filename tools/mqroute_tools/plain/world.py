"""What a broker knows, and what each command makes of it."""
from collections.abc import Iterable
from dataclasses import dataclass, field
from typing import Any, Protocol, cast

from . import access_lists
from .access_lists import Fault, Row
from .lines import U32, U64
from .refusals import Refused, refuse_if
from .topics import LONGEST_TEXT, is_name, level_order, levels, matches, subscription

LAST_MOMENT = 1_000_000_000_000  # seconds
Answer = dict[str, Any]
Options = dict[str, Any]  # of a subscription, by the names of a script
Answered = tuple[list[Answer], Answer]  # the copies, and what closes the answer


class Lists(Protocol):
    """How access lists are read, and decide."""

    def rows_of(self, text: str) -> list[Row] | Fault: ...

    def allowed(self, rows: list[Row] | None, client: str, user: str | None, name: str,
                direction: str) -> bool: ...


class FaultyList(Exception):
    def __init__(self, fault: Fault) -> None:
        super().__init__(f"line {fault.line}: {fault.kind}")
        self.line = fault.line


@dataclass
class Session:
    client: str
    user: str | None
    interval: int
    is_connected: bool = True
    end: int | None = None
    # with the deadline of each, or none
    waiting: list[tuple[Answer, int | None]] = field(default_factory=list)


@dataclass
class Subscription:
    client: str
    share: str | None
    wanted: str
    options: Options
    stamp: int

    def key(self) -> tuple[str, str | None, str]:
        return self.client, self.share, self.wanted


@dataclass
class Message:
    topic: str
    payload: str
    qos: int
    publisher: str
    deadline: int | None


def is_over(deadline: int | None, moment: int) -> bool:
    return deadline is not None and deadline <= moment


def prefixes(texts: Iterable[str]) -> set[tuple[str, ...]]:
    return {tuple(levels(text)[:n]) for text in texts for n in range(1, len(levels(text)) + 1)}


class World:
    def __init__(self, acl: str | None = None, max_retained: int | None = None,
                 max_queued: int = 1000, lists: Lists = access_lists) -> None:
        self.lists = lists
        self.rows = self.rows_of(acl)
        self.max_retained = max_retained
        self.max_queued = max_queued
        self.moment = 0
        self.accepted = 0
        self.sessions: list[Session] = []
        self.subscriptions: list[Subscription] = []
        self.retained: list[Message] = []

    def rows_of(self, acl: str | None) -> list[Row] | None:
        """Those of a text; none of none, by which all is allowed."""
        rows = None if acl is None else self.lists.rows_of(acl)
        if isinstance(rows, Fault):
            raise FaultyList(rows)
        return rows

    def apply(self, do: str, command: dict[str, Any]) -> Answered:
        copies, closing = getattr(self, do)(**command)
        self.accepted += 1
        return copies, closing

    def session(self, client: str) -> Session | None:
        return next((session for session in self.sessions if session.client == client), None)

    def check_client(self, client: str) -> None:
        refuse_if(not 1 <= len(client.encode()) <= LONGEST_TEXT or "\0" in client, "ClientId")

    def check_connected(self, client: str) -> Session:
        self.check_client(client)
        session = self.session(client)
        if session is None or not session.is_connected:
            raise Refused("NotConnected")
        return session

    def held(self, client: str) -> Session:
        """The session of a client that has one."""
        return cast(Session, self.session(client))

    def may_read(self, client: str, topic: str) -> bool:
        return self.lists.allowed(self.rows, client, self.held(client).user, topic, "read")

    def end(self, session: Session) -> None:
        self.sessions.remove(session)
        self.subscriptions = [it for it in self.subscriptions if it.client != session.client]

    def leave(self, session: Session) -> None:
        if session.interval == 0:
            self.end(session)
            return
        session.is_connected = False
        session.end = None if session.interval == U32 else self.moment + session.interval

    def connect(self, client: str, user: str | None, clean: bool,
                session_expiry: int) -> Answered:
        self.check_client(client)
        refuse_if(
            user is not None and (len(user.encode()) > LONGEST_TEXT or "\0" in user), "UserName")
        older = self.session(client)
        if older is not None and older.is_connected:
            self.leave(older)
        older = self.session(client)
        if older is not None and clean:
            self.end(older)
        if older is None or clean:
            self.sessions.append(Session(client, user, session_expiry))
            return [], {"reason": 0}
        copies = [dict(copy, expiry=None if deadline is None else deadline - self.moment)
                  for copy, deadline in older.waiting if not is_over(deadline, self.moment)]
        self.sessions.remove(older)
        self.sessions.append(Session(client, user, session_expiry))
        return copies, {"reason": 0}

    def disconnect(self, client: str) -> Answered:
        self.leave(self.check_connected(client))
        return [], {"reason": 0}

    def subscribe(self, client: str, filter: str, **options: Any) -> Answered:
        self.check_connected(client)
        share, wanted = subscription(filter)
        refuse_if(share is not None and options["no_local"], "SharedNoLocal")
        key = client, share, wanted
        older = next((it for it in self.subscriptions if it.key() == key), None)
        asks = (share is None
                and (options["handling"] == 0 or options["handling"] == 1 and older is None))
        if older is None:
            self.subscriptions.append(Subscription(client, share, wanted, options, self.accepted))
        else:
            older.options = options
        copies = [self.retained_copy(client, options, message)
                  for message in sorted(self.retained, key=lambda it: level_order(it.topic))
                  if asks and matches(wanted, message.topic)
                  and self.may_read(client, message.topic)
                  and not (options["no_local"] and message.publisher == client)]
        return copies, {"reason": options["qos"]}

    def retained_copy(self, client: str, options: Options, message: Message) -> Answer:
        return {"client": client, "topic": message.topic, "payload": message.payload,
                "qos": min(message.qos, options["qos"]), "retain": True,
                "expiry": None if message.deadline is None else message.deadline - self.moment,
                "ids": [] if options["id"] is None else [options["id"]]}

    def unsubscribe(self, client: str, filter: str) -> Answered:
        self.check_connected(client)
        key = client, *subscription(filter)
        kept = [it for it in self.subscriptions if it.key() != key]
        reason = 17 if len(kept) == len(self.subscriptions) else 0
        self.subscriptions = kept
        return [], {"reason": reason}

    def publish(self, client: str, topic: str, payload: str, qos: int, retain: bool,
                expiry: int | None) -> Answered:
        publisher = self.check_connected(client)
        refuse_if(not is_name(topic), "TopicName")
        may_write = self.lists.allowed(self.rows, client, publisher.user, topic, "write")
        refuse_if(not may_write, "NotAuthorized")
        others = [message for message in self.retained if message.topic != topic]
        stores = retain and payload != "" and expiry != 0
        is_new = len(others) == len(self.retained)
        is_full = self.max_retained is not None and len(self.retained) >= self.max_retained
        refuse_if(stores and is_new and is_full, "RetainedFull")
        message: Answer = {
            "topic": topic, "payload": payload, "qos": qos, "retain": retain, "expiry": expiry}
        deadline = None if expiry is None else self.moment + expiry
        found = [it for it in self.subscriptions if matches(it.wanted, topic)]
        unshared = self.unshared_copies(client, message, found)
        shared = self.group_copies(message, found)
        begins = False
        for session, copy in unshared:
            if (not session.is_connected and copy["qos"] > 0
                    and len(session.waiting) < self.max_queued):
                session.waiting.append((copy, deadline))
                begins = True
        if retain:
            self.retained = (
                others + ([Message(topic, payload, qos, client, deadline)] if stores else []))
        copies = [copy for session, copy in unshared if session.is_connected] + shared
        return copies, {"reason": 0 if copies or begins else 16}

    def unshared_copies(self, publisher: str, message: Answer,
                        found: list[Subscription]) -> list[tuple[Session, Answer]]:
        """A pair of session and copy for each client that gets one, away or not."""
        pairs = []
        for session in sorted(self.sessions, key=lambda it: it.client.encode()):
            own = [it.options for it in found if it.client == session.client and it.share is None
                   and not (it.options["no_local"] and it.client == publisher)]
            if own and self.may_read(session.client, message["topic"]):
                pairs.append((session, self.copy(session.client, message, own)))
        return pairs

    def copy(self, client: str, message: Answer, own: list[Options]) -> Answer:
        return dict(message, client=client, qos=min(message["qos"], max(it["qos"] for it in own)),
                    retain=message["retain"] and any(it["rap"] for it in own),
                    ids=sorted(it["id"] for it in own if it["id"] is not None))

    def group_copies(self, message: Answer, found: list[Subscription]) -> list[Answer]:
        groups = {(it.share, it.wanted) for it in found if it.share is not None}
        copies = []
        for share, wanted in sorted(groups, key=lambda it: (it[0].encode(), level_order(it[1]))):
            members = [it for it in found if (it.share, it.wanted) == (share, wanted)]
            in_turn = sorted(members, key=lambda it: it.stamp)
            served = next(
                (it for it in in_turn if self.may_be_served(it.client, message["topic"])), None)
            if served is not None:
                served.stamp = self.accepted
                copies.append(dict(self.copy(served.client, message, [served.options]), share=share,
                                   filter=wanted))
        return copies

    def may_be_served(self, client: str, topic: str) -> bool:
        return self.held(client).is_connected and self.may_read(client, topic)

    def acl(self, text: str | None) -> Answered:
        try:
            self.rows = self.rows_of(text)
        except FaultyList as fault:
            raise Refused("AclLine", fault.line) from fault
        return [], {"reason": 0}

    def advance(self, seconds: int) -> Answered:
        refuse_if(self.moment + seconds > LAST_MOMENT, "ClockTooFar")
        self.moment += seconds
        self.retained = [it for it in self.retained if not is_over(it.deadline, self.moment)]
        over = [it for it in self.sessions
                if not it.is_connected and is_over(it.end, self.moment)]
        for session in over:
            self.end(session)
        return [], {"reason": 0}

    def stat(self) -> Answered:
        nodes = (prefixes(it.wanted for it in self.subscriptions),
                 prefixes(it.topic for it in self.retained))
        return [], {"nodes": min(U64, sum(map(len, nodes))), "retained": len(self.retained),
                    "subscriptions": len(self.subscriptions)}
