"""The words for what was found, of filters, topics and QoS."""
from collections.abc import Iterable

from ..common.texts import quoted
from ..script.topics import plain_filter
from .history import Ending, Lost, Session, Subscription

SHOWN = 3  # subscriptions that match nearly
NEVER = "it hasn't connected"


def listed(subscriptions: Iterable[Subscription]) -> str:
    return ", ".join(one.in_words() for one in subscriptions)


def options(one: Subscription) -> str:
    more = [name for name, has in (("No Local", one.no_local), ("Retain As Published", one.rap))
            if has]
    return ", ".join([f"subscribed by {one.in_words()}: QoS {one.qos}", *more])


def qos(published: int, granted: int) -> str:
    return f"QoS {min(published, granted)}: published with {published}, subscribed with {granted}"


def retain(kept: bool) -> str:
    return ("RETAIN is kept: a subscription of it has Retain As Published" if kept
            else "RETAIN is taken off: no subscription of it has Retain As Published")


def no_session(ended: Ending | None, lost: list[Lost]) -> tuple[str, str]:
    """What is said of any client that has none, and of this one."""
    if ended is None:
        return NEVER, ""
    if not lost:
        return "its session ended", f" ({ended.in_words()})"
    gone = listed(one for one, _ in lost)
    return ("its session ended, and with it a subscription to this",
            f" ({gone}; {ended.in_words()})")


def no_subscription(lost: list[Lost]) -> tuple[str, str]:
    if not lost:
        return "not subscribed to it", ""
    one, ending = lost[-1]
    return "its subscription to this ended", f" ({one.in_words()}; {ending.in_words()})"


def mismatch(wanted: str, topic: str) -> tuple[int, str]:
    """How many levels of a topic a filter that doesn't match it goes along with, and why no
    more."""
    levels, name = wanted.split("/"), topic.split("/")
    if topic.startswith("$") and levels[0] in ("+", "#"):
        return 0, "a wildcard in front matches no topic that begins with $"
    for place, (level, own) in enumerate(zip(levels, name)):
        if level not in ("+", own):
            return place, f"level {place + 1} is {quoted(level)}, and the topic has {quoted(own)}"
    least = f"at least {len(levels) - 1}" if levels[-1] == "#" else f"{len(levels)}"
    return min(len(levels), len(name)), f"it needs {least} levels, and the topic has {len(name)}"


def nearest(session: Session, topic: str) -> list[str]:
    """What a client is subscribed to that matches most of the topic's levels."""
    own = [(one, mismatch(plain_filter(one.filter), topic))
           for one in session.subscriptions.values()]
    own.sort(key=lambda pair: -pair[1][0])
    return [f"subscribed by {one.in_words()}: {why}" for one, (_, why) in own[:SHOWN]]
