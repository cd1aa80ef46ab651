"""Scenes behind a random script: groups of three, and big and odd values.

They have a chance of their own, so that the script before them is the same with and without.
"""
import random
from collections.abc import Callable
from typing import Protocol

from ..script.output import Command
from ..script.sessions import FOREVER
from .parts import Use

OFTEN = 0.5  # how often a script has one
SELDOM = 0.03  # of those that take long
BIG, LONG, MANY = 70_000, 40_000, 520  # bytes of a payload and of a topic; messages
DEPTHS = (9, 20, 200)  # levels
MOST_WAIT, MOST_FILTERS = 30, 10
# Names that a broker might take for each other.
ALIKE = (("\u00c9/x", "\u00e9/x"), ("\u00e9/x", "e\u0301/x"), ("\u212b", "\u00c5"),
         ("\ufb01", "fi"), ("stra\u00dfe", "strasse"), ("\u03a3", "\u03c3"), ("x", "X"),
         ("\ufeffx", "x"), ("x ", "x"))
PAYLOADS = ("a\0b", "\0", "p" * BIG, "\u00e9" * (BIG // 2), "a\0" * (BIG // 4))
OPTIONS: tuple[Command, ...] = ({}, {"qos": 1, "id": 1}, {"qos": 2, "id": 2, "rap": True},
                                {"qos": 1, "id": 268_435_455})


class Script(Protocol):
    """What of a script is made of."""
    chance: random.Random
    use: Use
    live: list[str]
    lines: list[Command]

    def connect(self, client: str, **more: object) -> None: ...

    def leave(self, client: str) -> None: ...

    def subscribe(self, client: str, **more: object) -> None: ...

    def publish(self, client: str, **more: object) -> None: ...

    def someone(self) -> str: ...

    def kept(self) -> Command: ...

    def best_qos(self) -> Command: ...


def subscribed(script: Script, client: str, name: str, options: Command) -> None:
    """As far as the script may use the options."""
    use = script.use
    parts = {"qos": use.qos() >= options.get("qos", 0), "id": use.has("identifiers"),
             "rap": use.has("options")}
    held = {field: value for field, value in options.items() if value and parts[field]}
    script.lines.append({"do": "subscribe", "client": client, "filter": name, **held})


def published(script: Script, topic: str, payload: str, **more: object) -> None:
    script.lines.append({"do": "publish", "client": script.someone(), "topic": topic,
                         "payload": payload, **script.best_qos(), **more})


def several(script: Script, topic: str, number: int) -> None:
    for count in range(number):
        published(script, topic, str(count))


def group_of_three(script: Script) -> None:
    """Whose members have differing options; then one is taken over, begins anew or leaves."""
    chance, name = script.chance, f"$share/{script.chance.choice('gh')}/x"
    for client, options in zip("abc", chance.sample(OPTIONS, 3)):
        script.connect(client, **(script.kept() if script.use.has("sessions") else {}))
        subscribed(script, client, name, options)
    several(script, "x", 4)
    client = chance.choice("abc")
    changes: list[Callable[[], None]] = [lambda: unsubscribed(script, client, name)]
    if script.use.has("sessions"):
        changes += [lambda: script.connect(client, clean=True)]
        changes += [lambda: script.connect(client, **script.kept() | {"clean": False})] * 2
        changes += [lambda: away_and_back(script, client, chance.random() < 0.5)]
    chance.choice(changes)()
    several(script, "x", 4)


def unsubscribed(script: Script, client: str, name: str) -> None:
    script.lines.append({"do": "unsubscribe", "client": client, "filter": name})


def away_and_back(script: Script, client: str, clean: bool) -> None:
    script.leave(client)
    script.connect(client, **script.kept() | ({} if clean else {"clean": False}))


def two_shares(script: Script) -> None:
    """Of one filter, beside the filter itself: one of the three goes."""
    client, names = script.someone(), ["$share/g/x", "$share/h/x", "x"]
    for name, options in zip(script.chance.sample(names, 3), script.chance.sample(OPTIONS, 3)):
        subscribed(script, client, name, options)
    several(script, "x", 2)
    unsubscribed(script, client, script.chance.choice(names))
    several(script, "x", 2)


def only_member(script: Script) -> None:
    """Of a group, that is taken over, or comes back."""
    client = script.chance.choice("ab")
    script.connect(client, **script.kept())
    subscribed(script, client, "$share/g/x", script.chance.choice(OPTIONS))
    if script.chance.random() < 0.5:
        script.connect(client, **script.kept() | {"clean": False})
    else:
        away_and_back(script, client, False)
    several(script, "x", 2)


def odd_payload(script: Script) -> None:
    payload, client = script.chance.choice(PAYLOADS), script.someone()
    retain = {"retain": True} if script.use.has("retained") and script.chance.random() < 0.5 else {}
    if not retain:
        subscribed(script, client, "x", {"qos": 1})
    published(script, "x", payload, **retain)
    subscribed(script, client, "x", {"qos": 1})


def odd_topic(script: Script) -> None:
    """A long one, or a deep one, with a filter that has a wildcard now and then."""
    chance, client = script.chance, script.someone()
    levels = [chance.choice("xy") for _ in range(chance.choice(DEPTHS))]
    if chance.random() < 0.4:
        levels = ["x" * LONG, "y"]
    wanted = ["+" if script.use.has("wildcards") and chance.random() < 0.3 else level
              for level in levels]
    if script.use.has("wildcards") and chance.random() < 0.3:
        wanted[-1] = "#"
    subscribed(script, client, "/".join(wanted), {"qos": 1})
    for last in ("x", "y", "z"):
        published(script, "/".join([*levels[:-1], last]), "1")


def alike(script: Script) -> None:
    """Two names, one of which is subscribed to."""
    names = script.chance.sample(script.chance.choice(ALIKE), 2)
    end = script.chance.choice(["", "/#", "/+"]) if script.use.has("wildcards") else ""
    client = script.someone()
    subscribed(script, client, names[0] + end, {})
    for name in names:
        published(script, name + ("/x" if end == "/+" else ""), "1")


def dollar_inside(script: Script) -> None:
    subscribed(script, script.someone(), script.chance.choice(["x/+", "x/#", "+/+", "#"]), {})
    for topic in ("x/$y", "x/$SYS", "x/y"):
        published(script, topic, "1")


def many_wait(script: Script) -> None:
    client = script.chance.choice("abc")
    script.connect(client, **script.kept())
    subscribed(script, client, "x", {"qos": 1})
    script.connect("d")
    script.leave(client)
    several(script, "x", script.chance.randint(11, MOST_WAIT))
    script.connect(client, **script.kept() | {"clean": False})


def many_filters(script: Script) -> None:
    """Of one client, all of which match."""
    client = script.someone()
    names = ["x/y/z", "x/y/+", "x/+/z", "+/y/z", "x/+/+", "+/+/+", "x/#", "x/y/#", "#", "+/+/z"]
    for number, name in enumerate(script.chance.sample(names, script.chance.randint(
            5, MOST_FILTERS)), 1):
        subscribed(script, client, name, {"qos": number % 3, "id": number})
    several(script, "x/y/z", 2)


def longest_interval(script: Script) -> None:
    """Of a message that is retained or waits, or goes to somebody at once."""
    client, use = script.chance.choice("ab"), script.use
    script.connect(client, **(script.kept() | {"session_expiry": FOREVER}
                              if use.has("sessions") else {}))
    script.connect("d")
    subscribed(script, client, "x", {"qos": 1})
    way = script.chance.choice(["live", "waits", "retained"])
    if way == "waits" and use.has("sessions"):
        script.leave(client)
    retain = {"retain": True} if way == "retained" and use.has("retained") else {}
    published(script, "x", "1", expiry=FOREVER, **retain)
    if way == "waits" and use.has("sessions"):
        script.connect(client, **script.kept() | {"clean": False})
    subscribed(script, client, "x", {"qos": 1})


def last_interval(script: Script) -> None:
    """Of a session: that of the last connect counts."""
    client = script.chance.choice("ab")
    script.connect(client, **script.kept())
    subscribed(script, client, "x", {"qos": 1})
    script.connect(client, clean=False, session_expiry=0)
    script.leave(client)
    script.connect(client, clean=False, session_expiry=0)


def many_messages(script: Script) -> None:
    subscribed(script, script.someone(), "x", {"qos": 1})
    several(script, "x", MANY)


Scene = Callable[[Script], None]
SCENES: tuple[tuple[Scene, tuple[str, ...]], ...] = (  # with the parts that they need
    (group_of_three, ("groups",)), (group_of_three, ("groups",)), (two_shares, ("groups",)),
    (only_member, ("groups", "sessions")), (odd_payload, ()), (odd_topic, ()), (alike, ()),
    (alike, ()), (dollar_inside, ("wildcards", "dollar")), (many_wait, ("sessions", "qos")),
    (many_filters, ("wildcards",)), (longest_interval, ("expiry",)),
    (last_interval, ("sessions",)))


def add_scene(script: Script, old_sessions: bool) -> None:
    """Maybe one, of those that the script's parts allow."""
    if script.chance.random() > OFTEN:
        return
    may = [scene for scene, needed in SCENES if all(map(script.use.has, needed))
           and not (old_sessions and scene in (last_interval, longest_interval))]
    if script.chance.random() < SELDOM:
        may = [many_messages]
    script.chance.choice(may)(script)
