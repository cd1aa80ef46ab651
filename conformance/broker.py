#!/usr/bin/env python3
"""A small MQTT 5 broker, right by the standard in what the cases ask: for their own test.

    conformance/broker.py PORT [MUTANT]    in the foreground, with one of mutants.py's faults

Of port 0 it takes a free one; it prints which it has when it listens. It keeps lists and looks at
all of them. It has no access lists, no limits and no flow control. This file is what is routed to
whom; broker_wire.py reads and writes the packets.
"""
import asyncio
import sys
import time
from dataclasses import dataclass, field, replace
from pathlib import Path

FOREVER = 0xFFFFFFFF
LONGEST = 65_535  # bytes of a topic or filter
SHARE = "$share/"
NO_SUBSCRIBERS, NO_SUBSCRIPTION = 16, 17
INVALID_FILTER, INVALID_TOPIC, PROTOCOL_ERROR, TAKEN_OVER = 143, 144, 130, 142
WITH_WILL = 4  # a DISCONNECT that asks for the will


@dataclass(frozen=True)
class Message:
    topic: str
    payload: bytes
    qos: int = 0
    retain: bool = False
    publisher: str = ""
    interval: int | None = None  # as it was published
    deadline: float | None = None
    delay: int = 0  # of a will
    dup: bool = False  # of the PUBLISH that it came by
    properties: tuple = ()  # that are passed on, as pairs of a name and a value


@dataclass(frozen=True)
class Copy:
    message: Message
    qos: int
    retain: bool
    ids: tuple[int, ...] = ()
    is_shared: bool = False


@dataclass
class Subscription:
    share: str | None
    wanted: str
    qos: int = 0
    no_local: bool = False
    rap: bool = False
    handling: int = 0
    id: int | None = None


@dataclass
class Session:
    client: str
    interval: int = 0  # Session Expiry Interval
    connection: object = None  # to which copies are sent; none of a client that is away
    end: float | None = None  # when it ends, of a client that is away
    will: Message | None = None
    will_at: float | None = None  # when it is due, where it waits
    subscriptions: dict[str, Subscription] = field(default_factory=dict)  # by the whole text
    waiting: list[Copy] = field(default_factory=list)
    unanswered: dict[int, Copy] = field(default_factory=dict)  # by packet identifier


class Broker:
    """Each method is a rule that a mutant may put another in the place of."""

    def __init__(self):
        self.sessions = {}
        self.retained = {}
        self.turns = {}  # of groups: who was served last

    # -- names

    def is_text(self, text):
        return 0 < len(text.encode()) <= LONGEST and "\0" not in text

    def is_name(self, topic):
        return self.is_text(topic) and not set("+#") & set(topic)

    def is_filter(self, wanted):
        levels = wanted.split("/")
        return (self.is_text(wanted) and all("+" not in one or one == "+" for one in levels)
                and all("#" not in one for one in levels[:-1])
                and ("#" not in levels[-1] or levels[-1] == "#"))

    def split(self, text):
        """The share name, or none, and the filter."""
        if not text.startswith(SHARE):
            return None, text
        share, _, wanted = text[len(SHARE):].partition("/")
        return share, wanted

    def is_share_name(self, share):
        return share != "" and not set("+#") & set(share)

    def is_subscription(self, text):
        share, wanted = self.split(text)
        return (self.is_text(text) and (share is None or self.is_share_name(share))
                and self.is_filter(wanted))

    def is_level(self, want, have):
        return want in ("+", have)

    def is_hidden(self, wanted, topic):
        """Of a filter that begins with a wildcard, from which `$` keeps a topic."""
        return topic.startswith("$") and wanted[0] in "+#"

    def matches(self, wanted, topic):
        if self.is_hidden(wanted, topic):
            return False
        wants, levels = wanted.split("/"), topic.split("/")
        if wants[-1] == "#":
            wants = wants[:-1]
            if len(levels) < len(wants):
                return False
            levels = levels[:len(wants)]
        return len(wants) == len(levels) and all(map(self.is_level, wants, levels))

    # -- time

    def now(self):
        return time.monotonic()

    def is_over(self, message):
        return message.deadline is not None and message.deadline <= self.now()

    def left(self, copy, has_waited):
        """What is left of its interval, in seconds."""
        message = copy.message
        if message.interval is None or not has_waited:
            return message.interval
        return max(0, round(message.deadline - self.now()))

    def discard_ended(self):
        """Publishes the wills that are due, and ends the sessions that are over."""
        now = self.now()
        for session in list(self.sessions.values()):
            if session.will_at is not None and session.will_at <= now:
                self.send_will(session)
            if self.has_ended(session, now):
                self.end(session)

    def has_ended(self, session, now):
        return session.connection is None and session.end is not None and session.end <= now

    # -- sessions

    def connect(self, client, clean, interval, will, connection):
        """The session, and whether it was there before."""
        self.discard_ended()
        older = self.sessions.get(client)
        if older is not None and older.connection is not None:
            self.take_over(older)
            older = self.sessions.get(client)
        if older is not None and self.is_discarded(clean):
            self.end(older)
            older = None
        is_present = self.is_present(clean, older)
        session = self.resumed(older, client)
        self.sessions[client] = session
        session.interval, session.end, session.will_at = interval, None, None
        session.will, session.connection = self.kept_will(will), connection
        return session, is_present

    def is_discarded(self, clean):
        return clean

    def is_present(self, clean, older):
        return older is not None

    def resumed(self, older, client):
        return older or Session(client)

    def kept_will(self, will):
        return will

    def take_over(self, session):
        session.connection.close(TAKEN_OVER)
        self.leave(session, None)

    def leave(self, session, reason):
        """A connection ends, by a DISCONNECT of this reason or without."""
        session.connection, session.end = None, self.end_of(session)
        if not self.has_will(reason):
            session.will = None
        if session.will is not None:
            delay = self.delay(session)
            session.will_at = self.now() + delay
            if not delay:
                self.send_will(session)
        if session.interval == 0:
            self.end(session)

    def delay(self, session):
        """A will waits no longer than its session."""
        return min(session.will.delay, session.interval)

    def send_will(self, session):
        will, session.will, session.will_at = session.will, None, None
        if will is not None:
            self.publish(will)

    def has_will(self, reason):
        return reason is None or reason >= WITH_WILL

    def end_of(self, session):
        return None if session.interval == FOREVER else self.now() + session.interval

    def end(self, session):
        if self.sessions.get(session.client) is session:
            del self.sessions[session.client]

    # -- subscriptions

    def subscribe(self, session, text, subscription):
        """The reason, and what of the retained messages is sent for it."""
        older = session.subscriptions.get(text)
        session.subscriptions[text] = self.replaced(older, subscription)
        wanted = [message for message in self.retained_for(subscription)
                  if self.wants_retained(subscription, older is None)
                  and not self.is_own(session, subscription, message)]
        copies = [self.retained_copy(message, subscription) for message in wanted]
        return self.granted(subscription), copies

    def is_no_local_allowed(self, share, no_local):
        return share is None or not no_local

    def replaced(self, older, subscription):
        return subscription

    def granted(self, subscription):
        return subscription.qos

    def retained_for(self, subscription):
        live = [message for message in self.retained.values() if not self.is_over(message)]
        return [message for message in live if self.matches(subscription.wanted, message.topic)]

    def wants_retained(self, subscription, is_new):
        if subscription.share is not None:
            return False
        return subscription.handling == 0 or subscription.handling == 1 and is_new

    def is_own(self, session, subscription, message):
        return subscription.no_local and message.publisher == session.client

    def retained_copy(self, message, subscription):
        return Copy(message, self.lesser(message.qos, subscription), True,
                    self.ids([subscription]))

    def unsubscribe(self, session, text):
        key = self.unsubscribed(session, text)
        return NO_SUBSCRIPTION if session.subscriptions.pop(key, None) is None else 0

    def unsubscribed(self, session, text):
        """The text of the subscription that goes."""
        return text

    # -- messages

    def publish(self, message):
        """The reason."""
        self.discard_ended()
        if message.retain and self.is_kept(message):
            self.keep(message)
        elif message.retain:
            self.retained.pop(message.topic, None)
        pairs = [*self.plain_copies(message), *self.group_copies(message)]
        for session, copy in pairs:
            self.hand(session, copy)
        return 0 if pairs else NO_SUBSCRIBERS

    def is_kept(self, message):
        return message.payload != b"" and message.interval != 0

    def keep(self, message):
        self.retained[message.topic] = message

    def plain_copies(self, message):
        for session in list(self.sessions.values()):
            found = [one for one in session.subscriptions.values()
                     if one.share is None and self.matches(one.wanted, message.topic)
                     and not self.is_own(session, one, message)]
            if found:
                yield session, self.joined(message, found)

    def joined(self, message, found):
        """One copy for all subscriptions of a client that match."""
        qos = self.lesser(message.qos, self.greatest(found))
        return Copy(message, qos, self.retain(message, found), self.ids(found))

    def greatest(self, found):
        return max(found, key=lambda one: one.qos)

    def lesser(self, qos, subscription):
        return min(qos, subscription.qos)

    def retain(self, message, found):
        return message.retain and any(one.rap for one in found)

    def ids(self, found):
        return tuple(sorted(one.id for one in found if one.id is not None))

    def group_copies(self, message):
        groups = {}
        for session in self.sessions.values():
            for one in session.subscriptions.values():
                if one.share is not None and self.matches(one.wanted, message.topic):
                    groups.setdefault((one.share, one.wanted), []).append((session, one))
        for key, members in groups.items():
            session, one = self.chosen(key, members)
            copy = self.joined(message, [one])
            yield session, replace(copy, is_shared=True)

    def chosen(self, key, members):
        """In turn, of those that are connected, or of all where none is."""
        live = [pair for pair in members if pair[0].connection is not None] or members
        turn = self.turns[key] = self.turns.get(key, -1) + 1
        return live[turn % len(live)]

    def hand(self, session, copy):
        if session.connection is not None:
            session.connection.send_copy(copy, False)
        elif self.waits(copy):
            session.waiting.append(copy)

    def waits(self, copy):
        return copy.qos > 0

    def due(self, session):
        """What has waited for a client that is back, in order."""
        waiting, session.waiting = session.waiting, []
        return [copy for copy in waiting if not self.is_over(copy.message)]


def main():
    port, mutant = int(sys.argv[1]), sys.argv[2] if len(sys.argv) > 2 else ""
    sys.path[:0] = [str(Path(__file__).resolve().parent),
                    str(Path(__file__).resolve().parent.parent / "tools")]
    from broker_wire import serve
    from mutants import broken
    asyncio.run(serve(broken(mutant), port))


if __name__ == "__main__":
    main()
