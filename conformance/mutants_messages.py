"""Faults in what is published and retained: section 3.3."""
from dataclasses import replace

from broker import Broker
from broker_wire import Connection
from mutants import mutant


def changed(copy, **fields):
    """A copy whose message has other fields."""
    return replace(copy, message=replace(copy.message, **fields))


def again_retained(broker, message):
    broker.retained.setdefault(message.topic, message)


def older_qos(broker, message):
    older = broker.retained.get(message.topic)
    broker.retained[message.topic] = message if older is None else replace(message, qos=older.qos)


def keeps_all(broker, message):
    """What is published without RETAIN is retained too."""
    return Broker.publish(broker, replace(message, retain=True))


def one_retained(broker, subscription):
    return list(Broker.retained_for(broker, subscription))[:1]


mutant("3.3.1-1", "what is sent again has no DUP", wire={"is_dup": lambda self: False})
mutant("3.3.1-2", "copies of QoS 0 have the DUP of their PUBLISH", wire={
    "send_copy": lambda self, copy, has_waited, dup=False: Connection.send_copy(
        self, copy, has_waited, dup or copy.message.dup and not copy.qos)})
mutant("3.3.1-3", "copies have the DUP of their PUBLISH", wire={
    "send_copy": lambda self, copy, has_waited, dup=False: Connection.send_copy(
        self, copy, has_waited, dup or copy.message.dup)})
mutant("3.3.1-5", "a retained message isn't replaced", keep=again_retained)
mutant("3.3.1-5b", "nothing is retained", keep=lambda broker, message: None)
mutant("3.3.1-5c", "the newer message has the QoS of the older", keep=older_qos)
mutant("3.3.1-6", "an empty message removes nothing", is_kept=lambda broker, message: True,
       keep=lambda broker, message: message.payload and Broker.keep(broker, message))
mutant("3.3.1-7", "an empty message is retained", is_kept=lambda broker, message: (
    message.interval != 0))
mutant("3.3.1-8", "each message is retained", publish=keeps_all)
mutant("3.3.1-9", "with Retain Handling 0 nothing retained is sent again",
       wants_retained=lambda broker, one, is_new: (
           Broker.wants_retained(broker, one, is_new) and is_new))
mutant("3.3.1-9b", "one retained message is sent, whichever match", retained_for=one_retained)
mutant("3.3.1-10", "Retain Handling 1 is as 0", wants_retained=lambda broker, one, is_new: (
    one.share is None and one.handling < 2))
mutant("3.3.1-11", "Retain Handling 2 is as 1", wants_retained=lambda broker, one, is_new: (
    one.share is None and (one.handling == 0 or is_new)))
mutant("3.3.1-12", "each copy has the RETAIN of its PUBLISH",
       retain=lambda broker, message, found: message.retain)
mutant("3.3.1-13", "no live copy has RETAIN", retain=lambda broker, message, found: False)
mutant("3.3.2-2", "a PUBLISH may have wildcards in its topic",
       is_name=lambda broker, topic: broker.is_text(topic))
mutant("3.3.2-3", "topics are cut at 32,767 bytes", wire={
    "send_copy": lambda self, copy, has_waited, dup=False: Connection.send_copy(
        self, changed(copy, topic=copy.message.topic[:32_767]), has_waited, dup)})
mutant("3.3.2-5", "what has expired is sent", is_over=lambda broker, message: False)
mutant("3.3.2-6", "a copy has the interval of its PUBLISH, however long it waited",
       left=lambda broker, copy, has_waited: copy.message.interval)
mutant("3.3.2-6b", "intervals are signed numbers", left=lambda broker, copy, has_waited: (
    None if (copy.message.interval or 0) > 2**31 else Broker.left(broker, copy, has_waited)))


def without(name):
    """A property isn't passed on."""
    return {"passed_on": lambda self, message: [
        pair for pair in message.properties if pair[0] != name]}


mutant("3.3.2-4", "Payload Format Indicator isn't passed on", wire=without("payload_format"))
mutant("3.3.2-15", "Response Topic isn't passed on", wire=without("response_topic"))
mutant("3.3.2-16", "Correlation Data isn't passed on", wire=without("correlation"))
mutant("3.3.2-17", "User Properties aren't passed on", wire=without("user_properties"))
mutant("3.3.2-18", "User Properties are sorted", wire={"passed_on": lambda self, message: [
    (name, sorted(value) if name == "user_properties" else value)
    for name, value in message.properties]})
mutant("3.3.2-20", "Content Type isn't passed on", wire=without("content_type"))
mutant("3.3.4-2", "of overlapping subscriptions the first's QoS counts",
       greatest=lambda broker, found: found[0])
mutant("3.3.4-3", "no copy has an identifier", ids=lambda broker, found: ())


def of_the_group(broker, message):
    """A copy for a group has the options of who joined it first."""
    firsts = {}
    for session in broker.sessions.values():
        for one in session.subscriptions.values():
            firsts.setdefault((one.share, one.wanted), one)
    for session, copy in Broker.group_copies(broker, message):
        found = [one for one in session.subscriptions.values() if one.share is not None
                 and broker.matches(one.wanted, message.topic)]
        yield session, replace(copy, ids=broker.ids([firsts[found[0].share, found[0].wanted]]))


mutant("3.3.4-3b", "a copy for a group has the identifier of who joined it first",
       group_copies=of_the_group)
mutant("3.3.4-4", "a copy has the first identifier alone",
       ids=lambda broker, found: Broker.ids(broker, found)[:1])


def one_each(broker, message):
    """A copy for each subscription, the identifiers the wrong way round."""
    for session, copy in Broker.plain_copies(broker, message):
        ids = copy.ids or (None,)
        found = [one for one in session.subscriptions.values() if one.share is None
                 and broker.matches(one.wanted, message.topic)]
        for one, held in zip(sorted(found, key=lambda it: it.qos), ids):
            given = (held,) if held is not None else ()
            yield session, replace(copy, qos=broker.lesser(message.qos, one), ids=given)


mutant("3.3.4-5", "each copy has the identifier of another", plain_copies=one_each)
