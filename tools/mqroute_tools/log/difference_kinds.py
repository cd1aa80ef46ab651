"""The kinds of differences between a log and mqroute's output, which
docs/reference/compare-log.md explains."""
from ..script.output import Key
from ..script.topics import matches
from .clients import Inferred
from .steps import Copy, Step

OWN_WILL = "own will in a session that is kept"
LOGGED_WILL = "own will of a client that is gone"
TAKEN_WILL = "own will at a takeover"
BROKERS_TOPIC = "the broker's own topics"
HELD_BACK = "held back by max_inflight_messages"
TESTED_AGAIN = "tested again under another user name"
CUT_OFF = "cut off by the end of the connection"
MEMBERS_TURN = "another member's turn"
RETAINED_FOR_GROUP = "retained messages for a group"
OVERLAPPING = "overlapping subscriptions"
DENIED_WILL = "denied will"
BROKER_REFUSED = "refused by the broker alone"
MQROUTE_REFUSED = "refused by mqroute alone"
ONE_QOS = "QoS of one matching subscription"
AS_PUBLISHED = "Retain As Published"
DIFFERENT = "different"
UNEXPLAINED = DIFFERENT, BROKER_REFUSED, MQROUTE_REFUSED


def joined(copies: list[Copy]) -> tuple[int, int] | None:
    """Their greatest QoS and RETAIN."""
    if len(copies) < 2:
        return (copies[0].qos, copies[0].retain) if copies else None
    return max(c.qos for c in copies), max(c.retain for c in copies)


def greatest_retain(copies: list[Copy]) -> int:
    return max((copy.retain for copy in copies), default=0)


def own_will(step: Step, key: Key) -> bool:
    """Whether the client publishes to the topic and then leaves: so a script has the will of a
    session that is kept."""
    if len(step.commands) < 2:
        return False
    gone = {"do": "disconnect", "client": key[0]}
    if gone not in step.commands:
        return False
    published = [at for at, c in enumerate(step.commands)
                 if c["do"] == "publish" and (c["client"], c["topic"]) == key]
    return bool(published) and any(c == gone for c in step.commands[published[-1]:])


def is_will(step: Step, key: Key) -> bool:
    """Whether a publish of this client and topic is a will's: the broker logs none of these."""
    return any(isinstance(c, Inferred) and c["do"] == "publish" and (c["client"], c["topic"]) == key
               for c in step.commands)


def lower_qos(theirs: list[Copy], ours: list[Copy]) -> bool:
    """Whether the broker's copies, one or as many as ours, have the less QoS."""
    if len(theirs) == 1 and ours:
        return theirs[0].qos < max(copy.qos for copy in ours)
    here, there = (sorted(copy.qos for copy in side) for side in (ours, theirs))
    return len(here) == len(there) and here != there and all(a >= b for a, b in zip(here, there))


def kind(step: Step, key: Key) -> str:
    """Names the differences that one step alone explains; the others are `different`."""
    client, topic = key
    theirs, ours = step.broker.copies.get(key, []), step.mqroute.copies.get(key, [])
    filters = [c["filter"] for c in step.commands if c["do"] == "subscribe"]
    more = len(theirs) > len(ours)
    if (more and filters and any(f.startswith("$share/") for f in filters)
            and all(c.retain for c in theirs)):
        return RETAINED_FOR_GROUP
    if joined(theirs) == joined(ours) and len(theirs) >= sum(not copy.shared for copy in ours):
        return OVERLAPPING  # of fewer copies some were dropped
    if client in step.old_protocol and lower_qos(theirs, ours):
        return ONE_QOS
    if (len(theirs) == len(ours) and sorted(c.qos for c in theirs) == sorted(c.qos for c in ours)
            and greatest_retain(theirs) > greatest_retain(ours)):
        return AS_PUBLISHED
    if not filters and (more or any(c.shared for c in ours)) and step.of_group:
        return MEMBERS_TURN
    if more and any(matches(f, topic) for f in step.shared.get(client, [])):
        return MEMBERS_TURN  # which was away, and now comes back
    return DIFFERENT
