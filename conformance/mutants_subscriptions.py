"""Faults in subscribing, names, filters and groups: sections 3.8 to 3.11, 1.5.4, 4.5 to 4.8."""
import unicodedata
from dataclasses import replace

from broker import NO_SUBSCRIBERS, NO_SUBSCRIPTION, SHARE, Broker, Copy, Session
from broker_wire import Connection
from mutants import HELD, Mutant, mutant


# -- subscribing and unsubscribing

def keeps(*names):
    """A new subscription leaves these options of the older one as they are."""
    def replaced(broker, older, subscription):
        held = {name: getattr(older, name) for name in names} if older else {}
        return replace(subscription, **held)
    return replaced


def one_more(broker, session, text, subscription):
    """A subscription to the same filter stands beside the older one."""
    if text in session.subscriptions:
        session.subscriptions[text + "\0"] = session.subscriptions[text]
    return Broker.subscribe(broker, session, text, subscription)


def live_ones_go(broker, session, text, subscription):
    """Where a subscription is replaced, what is retained isn't sent for it."""
    again = text in session.subscriptions
    reason, copies = Broker.subscribe(broker, session, text, subscription)
    return reason, [] if again else copies


def is_replays(connection, reader):
    """What mqroute-replay asks for itself: without an answer it runs no case."""
    return connection.session.client.startswith("mqroute") or b"mqroute/" in reader.data


def own_by_no_local(broker, session, subscription, message):
    """No Local looks at live messages alone."""
    return Broker.is_own(broker, session, subscription, message) and not message.retain


mutant("3.8.3-3", "No Local keeps nothing from its client",
       is_own=lambda broker, session, one, message: False)
mutant("3.8.3-3b", "own retained messages are sent in spite of No Local", is_own=own_by_no_local)
mutant("3.8.3-3c", "No Local of a plain subscription holds for the groups too",
       group_copies=lambda broker, message: [
           pair for pair in Broker.group_copies(broker, message)
           if not any(broker.is_own(pair[0], one, message)
                      for one in pair[0].subscriptions.values())])
mutant("3.8.3-4", "a shared subscription may have No Local",
       is_no_local_allowed=lambda broker, share, no_local: True)
mutant("3.8.4-1", "a SUBSCRIBE isn't acknowledged", wire={
    "subscribe": lambda self, mid, about, reader: (
        Connection.subscribe(self, mid, about, reader) if is_replays(self, reader) else None)})
mutant("3.8.4-3", "subscribing again changes no QoS", replaced=keeps("qos"))
mutant("3.8.4-3b", "subscribing again changes no identifier", replaced=keeps("id"))
mutant("3.8.4-3c", "subscribing again changes no No Local", replaced=keeps("no_local"))
mutant("3.8.4-3d", "subscribing again changes no Retain As Published", replaced=keeps("rap"))
mutant("3.8.4-4", "subscribing again sends nothing that is retained", subscribe=live_ones_go)
mutant("3.8.4-5", "of several filters in a SUBSCRIBE the first alone counts", wire={
    "subscribe_one": lambda self, name, options, identifier: (
        Connection.subscribe_one(self, name, options, identifier)
        if not self.session.subscriptions else (options & 3, []))})
mutant("3.8.4-6", "a SUBACK has one reason", wire={
    "reasons": lambda self, reasons: bytes(reasons[:1])})
mutant("3.8.4-7", "a SUBACK says QoS 0 for each filter", granted=lambda broker, one: 0)
mutant("3.8.4-8", "a copy has the QoS of its PUBLISH", lesser=lambda broker, qos, one: qos)
mutant("3.8.4-8b", "a copy has the QoS of the subscription",
       lesser=lambda broker, qos, one: one.qos)
mutant("3.9.2-1", "the reasons of a SUBACK are in another order", wire={
    "reasons": lambda self, reasons: bytes(sorted(reasons))})
mutant("3.10.4-1", "an UNSUBSCRIBE takes what its filter matches",
       unsubscribed=lambda broker, session, text: next(
           (name for name in session.subscriptions if broker.matches(text, name)), text))
mutant("3.10.4-1b", "an UNSUBSCRIBE looks at no share name",
       unsubscribed=lambda broker, session, text: next(
           (name for name in session.subscriptions
            if broker.split(name)[1] == broker.split(text)[1]), text))
mutant("3.10.4-2", "what is unsubscribed from goes on", unsubscribe=lambda broker, session, text: (
    0 if text in session.subscriptions else NO_SUBSCRIPTION))
mutant("3.10.4-4", "an UNSUBSCRIBE isn't acknowledged", wire={
    "unsubscribe": lambda self, mid, reader: (
        Connection.unsubscribe(self, mid, reader) if is_replays(self, reader) else None)})
mutant("3.10.4-5", "an UNSUBSCRIBE of what nobody has isn't acknowledged", wire={
    "unsubscribe": lambda self, mid, reader: (
        Connection.unsubscribe(self, mid, reader) if is_replays(self, reader) or any(
            name.encode() in reader.data for name in self.session.subscriptions) else None)})
mutant("3.10.4-6", "of several filters in an UNSUBSCRIBE the last alone counts", wire={
    "unsubscribe": lambda self, mid, reader: last_alone(self, mid, reader)})
mutant("3.11.3-1", "the reasons of an UNSUBACK are in another order", wire={
    "reasons": lambda self, reasons: bytes(sorted(reasons))})
mutant("3.4.2-1", "a PUBACK says that nobody subscribes where somebody does",
       publish=lambda broker, message: Broker.publish(broker, message) or NO_SUBSCRIBERS)


def last_alone(connection, mid, reader):
    before = dict(connection.session.subscriptions)
    Connection.unsubscribe(connection, mid, reader)
    gone = [name for name in before if name not in connection.session.subscriptions]
    connection.session.subscriptions |= {name: before[name] for name in gone[1:]}


# -- names and filters

def lax(broker, text):
    """A filter may have wildcards anywhere."""
    share, wanted = broker.split(text)
    return broker.is_text(text) and (share is None or broker.is_share_name(share)) \
        and broker.is_text(wanted)


def without_plus(broker, wanted):
    levels = wanted.split("/")
    return broker.is_text(wanted) and "#" not in "".join(levels[:-1]) \
        and ("#" not in levels[-1] or levels[-1] == "#")


def without_hash(broker, wanted):
    return broker.is_text(wanted) and all(
        "+" not in one or one == "+" for one in wanted.split("/"))


def normal(want, have):
    return unicodedata.normalize("NFC", want) == unicodedata.normalize("NFC", have)


def no_byte_order_mark(message):
    return replace(message, topic=message.topic.replace("\ufeff", ""))


WITH_NULL = {"text": lambda self, reader: reader.binary().decode("utf-8", "replace")}
mutant("1.5.4-2", "a text may have U+0000", wire=WITH_NULL,
       is_text=lambda broker, text: text != "")
mutant("1.5.4-3", "U+FEFF is left out", publish=lambda broker, message: Broker.publish(
    broker, no_byte_order_mark(message)))
mutant("4.7.0-1", "a topic may have wildcards, and is sent",
       is_name=lambda broker, topic: broker.is_text(topic))
mutant("4.7.1-1", "a filter may have `#` within it", is_filter=without_hash)
mutant("4.7.1-2", "a filter may have `+` within a level", is_filter=without_plus)
mutant("4.7.2-1", "a filter that begins with a wildcard matches `$`",
       is_hidden=lambda broker, wanted, topic: False)
mutant("4.7.2-1b", "`$` at the front of any level keeps a topic from wildcards",
       is_hidden=lambda broker, wanted, topic: topic[:1] == "$" and wanted[0] in "+#"
       or "/$" in topic and set(wanted) & set("+#"))
mutant("4.7.3-1", "names and filters may be empty", is_text=lambda broker, text: "\0" not in text,
       is_hidden=lambda broker, wanted, topic: topic[:1] == "$" and wanted[:1] in ("+", "#"))
mutant("4.7.3-2", "names may have U+0000", wire=WITH_NULL, is_name=lambda broker, topic: (
    topic != "" and not set("+#") & set(topic)))
mutant("4.7.3-3", "topics of over 32,767 bytes go to nobody",
       matches=lambda broker, wanted, topic: len(topic) < 32_768 and Broker.matches(
           broker, wanted, topic))
mutant("4.7.3-4", "spellings of one letter are one",
       is_level=lambda broker, want, have: want == "+" or normal(want, have))
mutant("4.7.3-4b", "case counts in ASCII alone",
       is_level=lambda broker, want, have: want == "+" or want == have or (
           not want.isascii() and want.lower() == have.lower()))
mutant("4.7.3-4c", "a `.` is a slash", matches=lambda broker, wanted, topic: Broker.matches(
    broker, wanted.replace(".", "/"), topic.replace(".", "/")))

# -- what is kept, and order


def first_of_three(broker, session, copy):
    """What comes third for a client that is away is put first."""
    Broker.hand(broker, session, copy)
    if len(session.waiting) == 3:
        session.waiting.insert(0, session.waiting.pop())


def ten_at_most(broker, session, copy):
    if session.connection is not None or len(session.waiting) < 10:
        Broker.hand(broker, session, copy)


def but_each_500th(broker, session, copy):
    broker.count = getattr(broker, "count", 0) + 1
    if broker.count % 500:
        Broker.hand(broker, session, copy)


def live_members(broker, message):
    """A group whose members are all away loses its message."""
    return [pair for pair in Broker.group_copies(broker, message)
            if pair[0].connection is not None]


def in_turns(connection, copy, has_waited, dup=False):
    """Each second copy is held back until the next one."""
    held, connection.held = getattr(connection, "held", None), None
    if held is None and not dup and copy.qos and copy.message.payload == b"1":
        connection.held = copy, has_waited
        return
    Connection.send_copy(connection, copy, has_waited, dup)
    if held is not None:
        Connection.send_copy(connection, *held)


mutant("4.5.0-1", "what comes while a client is away is lost", waits=lambda broker, copy: False)
mutant("4.5.0-1b", "ten messages wait, and no more", hand=ten_at_most)
mutant("4.5.0-1c", "each 500th copy is lost", hand=but_each_500th)
mutant("4.5.0-1d", "a group whose members are all away loses its message",
       group_copies=live_members)
mutant("4.6.0-5", "a message comes behind the next one", wire={"send_copy": in_turns})
mutant("4.6.0-6", "what waits comes in another order", hand=first_of_three)

# -- groups


def by_first(broker, message):
    """A copy for a group has the QoS of who joined it first."""
    firsts = {}
    for session in broker.sessions.values():
        for one in session.subscriptions.values():
            firsts.setdefault((one.share, one.wanted), one)
    return [(session, replace(copy, qos=broker.lesser(
        message.qos, next(one for (share, wanted), one in firsts.items()
                          if share and broker.matches(wanted, message.topic)))))
            for session, copy in Broker.group_copies(broker, message)]


def to_the_next(broker, session):
    """What wasn't acknowledged goes to another member when its own session ends."""
    Broker.end(broker, session)
    for copy in session.unanswered.values():
        if copy.is_shared:
            broker.publish(copy.message)


def at_once_to_the_next(broker, session, reason):
    held, session.unanswered = dict(session.unanswered), {}
    Broker.leave(broker, session, reason)
    for copy in held.values():
        broker.publish(copy.message)


mutant("4.8.2-1", "a share name may be empty", is_share_name=lambda broker, share: not (
    set("+#") & set(share)))
mutant("4.8.2-2", "a share name may have wildcards",
       is_share_name=lambda broker, share: share != "")
mutant("4.8.2-2b", "behind a share name may stand nothing", is_subscription=lambda broker, text: (
    broker.is_text(text) and (Broker.is_subscription(broker, text) or text.startswith(SHARE)
                              and broker.split(text)[1] == "" and broker.is_share_name(
                                  broker.split(text)[0]))),
       matches=lambda broker, wanted, topic: bool(wanted) and Broker.matches(
           broker, wanted, topic))
mutant("4.8.2-3", "a copy for a group has the QoS of who joined it first", group_copies=by_first)
mutant("4.8.2-4", "what a member hasn't acknowledged goes to another one at once",
       leave=at_once_to_the_next)
mutant("4.8.2-5", "where a member's session ends, another one gets what it hasn't acknowledged",
       end=to_the_next)

# -- wrong in many ways, so that each case fails on one of them


def crude(name, says, wire=None, **rules):
    HELD[f"CRUDE-{name}"] = Mutant(f"CRUDE-{name}", says, rules, wire or {})


def to_all(broker, message):
    """To each client, whatever it has subscribed to."""
    pairs = [(session, Copy(message, 0, False)) for session in broker.sessions.values()
             if session.connection is not None]
    for session, copy in pairs:
        broker.hand(session, copy)
    return NO_SUBSCRIBERS


crude("deaf", "sends nothing, and forgets all", publish=lambda broker, message: NO_SUBSCRIBERS,
      end_of=lambda broker, session: 0)
crude("lavish", "sends all to all, and takes any name", publish=to_all,
      is_name=lambda broker, topic: True, is_subscription=lambda broker, text: True,
      is_no_local_allowed=lambda broker, share, no_local: True)
crude("forgetful", "keeps no session and nothing retained", keep=lambda broker, message: None,
      resumed=lambda broker, older, client: Session(client),
      is_present=lambda broker, clean, older: not clean)
crude("odd", "copies have another payload, and RETAIN", wire={
    "send_copy": lambda self, copy, has_waited, dup=False: Connection.send_copy(self, replace(
        copy, retain=True, message=replace(copy.message, payload=b"odd")), has_waited, dup)})
