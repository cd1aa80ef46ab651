"""Random scripts of few names, in which much comes together."""
import random
from collections.abc import Callable
from typing import NamedTuple

from ..live.wills import PAYLOAD
from ..script.output import Command
from ..script.sessions import FOREVER
from .odd_names import odd_script
from .odd_scenes import add_scene
from .parts import ACCESS, CLOCK, MARKS, ODD, OLD_SESSIONS, PARTS, Use
from .random_lists import USERS, random_list

CLIENTS = "abcd"
TOPICS = ["x", "x", "x/y", "x/y", "y", "/", "x/", "x/y/z", "X/y", "\u00e9/x", "x/y/z/v/w",
          "x/y/z/v/u"]
DOLLAR_TOPICS = ["$x", "$x/y", "$x"]
IDENTIFIERS = [1, 2, 3, 127, 128, 16384, 268_435_455]  # at the edges of their encoding, too
FEWEST, MOST = 8, 30  # commands behind the first connects
MOST_NAMES = 4  # topics, and filters
LEFT_OUT = 0.25  # how often a script leaves a part out
KEPT = 1000  # seconds that a session or a message is kept
# Seconds after which it ends, and that are longer; and a part of those that it is kept, in which
# more passes than replay grants.
ENDS, LONGER, PART = 1, 2, 4
LONG = 2000  # bytes of a long payload
MANY = 60  # retained messages, where there are many
# How often a script has a scene, of those that the parts allow; and how often one of the clock.
SCENES, CLOCK_SCENES, MANY_SCENES = 0.6, 0.03, 0.03
ODD_SCRIPTS, ODD_LISTS = 0.5, 3  # how often a script is of odd names; the lists that it tries


class Maker:
    """Makes scripts by number: the same for the same seed, whichever were made before."""

    def __init__(self, seed: int, use: Use) -> None:
        self.seed, self.use = seed, use

    def script(self, number: int) -> list[Command]:
        chance = random.Random(f"{self.seed}/{number}")
        if self.use.has(MARKS) and chance.random() < ODD_SCRIPTS:
            return odd_script(chance, ODD_LISTS, min(1, self.use.qos()))
        script = RandomScript(chance, self.use)
        script.made()
        script.chance = random.Random(f"{self.seed}/{number}/odd")
        if self.use.has(ODD) and not self.use.has(ACCESS):
            add_scene(script, self.use.has(OLD_SESSIONS))
        return script.lines


class Names(NamedTuple):
    """Those of one script: few, so that they meet."""
    clients: str
    topics: list[str]
    filters: list[str]  # made of the topics
    shares: list[str]
    users: dict[str, str]  # by client

    @classmethod
    def chosen(cls, chance: random.Random, use: Use) -> "Names":
        all_topics = TOPICS + (DOLLAR_TOPICS if use.has("dollar") else [])
        topics = [chance.choice(all_topics) for _ in range(chance.randint(1, MOST_NAMES))]
        filters = [widened(chance, chance.choice(topics)) if use.has("wildcards")
                   else chance.choice(topics) for _ in range(chance.randint(1, MOST_NAMES))]
        users = {client: chance.choice(USERS) for client in CLIENTS
                 if use.has(ACCESS) and chance.random() < 0.5}
        return cls(CLIENTS if chance.random() < 0.7 else CLIENTS[:-1], topics, filters,
                   chance.choice([["g"], ["g"], ["g", "h"]]), users)


def widened(chance: random.Random, topic: str) -> str:
    """A filter that matches the topic, unless that begins with `$`."""
    levels = ["+" if chance.random() < 0.25 else level for level in topic.split("/")]
    if chance.random() < 0.35:
        levels[chance.randint(0, len(levels)):] = ["#"]
    return "/".join(levels)


class RandomScript:
    """Every command is of a client that is connected. Some parts are left out, so that what goes
    wrong with one doesn't hide the others."""

    def __init__(self, chance: random.Random, use: Use) -> None:
        self.chance = chance
        self.use = use.without([part for part in PARTS if chance.random() < LEFT_OUT])
        self.names = Names.chosen(chance, self.use)
        self.live: list[str] = []
        self.away: list[str] = []
        self.published = 0
        self.lines: list[Command] = []

    def made(self) -> list[Command]:
        chance = self.chance
        if self.use.has(ACCESS) and chance.random() > LEFT_OUT:
            self.lines.append(self.access())
        for client in self.names.clients:
            if chance.random() < 0.9 or client == "a":
                self.connect(client)
            else:
                self.away.append(client)
        if self.use.has(CLOCK) and chance.random() < CLOCK_SCENES and self.clock_scene():
            return self.lines
        for _ in range(chance.randint(FEWEST, MOST)):
            self.any_command()
        if self.may("retained", MANY_SCENES):
            self.many_retained()
        elif chance.random() < SCENES:
            self.scene()
        for _ in range(chance.randint(0, FEWEST)):
            self.any_command()
        return self.lines

    # -- what is chosen

    def may(self, part: str, probability: float) -> bool:
        return self.chance.random() < probability and self.use.has(part)

    def access(self) -> Command:
        return random_list(self.chance, self.names.topics + self.names.filters)

    def filter(self) -> str:
        name = self.chance.choice(self.names.filters)
        return self.shared(name) if self.may("groups", 0.35) else name

    def shared(self, name: str) -> str:
        return f"$share/{self.chance.choice(self.names.shares)}/{name}"

    def with_qos(self, command: Command) -> Command:
        qos = self.chance.randint(0, self.use.qos())
        return command | ({"qos": qos} if qos else {})

    def payload(self) -> str:
        self.published += 1
        return self.chance.choice(
            [str(self.published)] * 5 + ["", "p" * LONG + str(self.published)])

    # -- commands

    def any_command(self) -> None:
        chance = self.chance
        often = {"connect": 2 if self.away else 0.4, "disconnect": 1.6, "subscribe": 9,
                 "unsubscribe": 1.5, "publish": 14, "acl": 0.5 if self.use.has(ACCESS) else 0}
        do = chance.choices([*often], [*often.values()])[0]
        if do == "acl":
            self.lines.append(self.access())
        elif do == "connect" or not self.live:
            self.connect(chance.choice(self.away or self.live))
        else:
            make: Callable[[str], None] = getattr(self, do)
            make(chance.choice(self.live))

    def connect(self, client: str, **more: object) -> None:
        is_back = client in self.away or client in self.live
        command: Command = {"do": "connect", "client": client}
        if client in self.names.users:
            command["user"] = self.names.users[client]
        if self.use.has(OLD_SESSIONS):
            if self.may("sessions", 0.7):
                command |= {"clean": False, "session_expiry": FOREVER}
        else:
            if self.may("sessions", 0.8 if is_back else 0.2):
                command["clean"] = False
            if self.may("sessions", 0.7):
                command["session_expiry"] = KEPT
        self.lines.append(command | more)
        self.live = sorted({*self.live, client})
        self.away = [name for name in self.away if name != client]

    def disconnect(self, client: str) -> None:
        if self.may("wills", 0.4):
            self.publish(client, payload=PAYLOAD)
        self.leave(client)

    def leave(self, client: str) -> None:
        self.lines.append({"do": "disconnect", "client": client})
        self.live.remove(client)
        self.away = sorted({*self.away, client})

    def subscribe(self, client: str, **more: object) -> None:
        command = self.with_qos({"do": "subscribe", "client": client, "filter": self.filter()})
        command |= more
        if self.may("options", 0.2) and not command["filter"].startswith("$share/"):
            command["no_local"] = True
        if self.may("options", 0.25):
            command["rap"] = True
        if self.may("options", 0.3):
            command["handling"] = self.chance.randint(1, 2)
        if self.may("identifiers", 0.5):
            command["id"] = self.chance.choice(IDENTIFIERS)
        self.lines.append(command)

    def unsubscribe(self, client: str) -> None:
        self.lines.append({"do": "unsubscribe", "client": client, "filter": self.filter()})

    def publish(self, client: str, **more: object) -> None:
        command: Command = {
            "do": "publish", "client": client, "topic": self.chance.choice(self.names.topics),
            "payload": self.payload()}
        command = self.with_qos(command)
        if self.may("retained", 0.4):
            command["retain"] = True
        if self.may("expiry", 0.15):
            command["expiry"] = self.chance.choice([0, KEPT])
        self.lines.append(command | more)

    # -- scenes: what random commands make too seldom

    def scene(self) -> None:
        scenes = [self.overlapping]
        scenes += [self.taken_over] * 2 if self.use.has("sessions") else []
        scenes += [self.leaves_and_returns] * 4 if self.use.has("sessions") else []
        if self.use.has("sessions") and self.use.has("wills"):
            scenes += [self.leaves_with_will] * 2
        scenes += [self.group_of_several] * 2 if self.use.has("groups") else []
        scenes += [self.retained_of_all] if self.use.has("retained") else []
        self.chance.choice(scenes)()

    def someone(self) -> str:
        """A client that is connected."""
        if not self.live:
            self.connect(self.chance.choice(self.names.clients))
        return self.chance.choice(self.live)

    def one_filter(self, topic: str) -> str:
        return widened(self.chance, topic) if self.use.has("wildcards") else topic

    def best_qos(self) -> Command:
        return {"qos": self.use.qos()} if self.use.has("qos") else {}

    def kept(self, seconds: int = KEPT) -> Command:
        """A session that lasts, a new one where the protocol can say so."""
        if self.use.has(OLD_SESSIONS):
            return {"clean": False, "session_expiry": FOREVER}
        return {"clean": True, "session_expiry": seconds}

    def leaves_and_returns(self) -> None:
        """With messages that wait, of each QoS."""
        client = self.chance.choice(self.away or list(self.names.clients))
        topic = self.names.topics[0]
        self.connect(client, **self.kept())
        for _ in range(self.chance.randint(1, 2)):
            self.subscribe(client, filter=self.one_filter(topic), **self.best_qos())
        self.leave(client)
        for _ in range(self.chance.randint(1, 5)):
            more = {"topic": topic} if self.chance.random() < 0.7 else {}
            self.publish(self.someone(), **more)
        self.connect(client, **self.kept() | {"clean": False})

    def taken_over(self) -> None:
        """By a connection that would resume the session, if there is one."""
        client, topic = self.chance.choice(self.names.clients), self.names.topics[0]
        begun = self.kept() if self.chance.random() < 0.5 else {"clean": True, "session_expiry": 0}
        self.connect(client, **begun)
        self.subscribe(client, filter=self.one_filter(topic))
        self.connect(client, **self.kept() | {"clean": False})
        self.publish(self.someone(), topic=topic)

    def leaves_with_will(self) -> None:
        """Which it would get itself, but for No Local."""
        client = self.chance.choice(self.away or list(self.names.clients))
        topic = self.names.topics[0]
        self.connect(client, **self.kept())
        self.subscribe(client, filter=topic, **self.best_qos(),
                       **({"no_local": True} if self.use.has("options") else {}))
        self.lines.append({"do": "publish", "client": client, "topic": topic, "payload": PAYLOAD,
                           **self.best_qos()})
        self.leave(client)
        self.connect(client, **self.kept() | {"clean": False})

    def group_of_several(self) -> None:
        topic = self.names.topics[0]
        name = self.shared(self.one_filter(topic))
        for client in self.live:
            self.subscribe(client, filter=name)
        for _ in range(self.chance.randint(2, 5)):
            self.publish(self.someone(), topic=topic)
        self.lines.append({"do": "unsubscribe", "client": self.someone(), "filter": name})
        for _ in range(2):
            self.publish(self.someone(), topic=topic)

    def overlapping(self) -> None:
        """Plain subscriptions of one client that match one topic."""
        client, topic = self.someone(), self.names.topics[0]
        for _ in range(2):
            self.subscribe(client, filter=self.one_filter(topic))
        for _ in range(2):
            self.publish(self.someone(), topic=topic)

    def retained_of_all(self) -> None:
        """One on each topic, and a filter for all."""
        for topic in self.names.topics:
            self.publish(self.someone(), topic=topic, retain=True)
        self.look("#" if self.use.has("wildcards") else self.names.topics[0])

    def look(self, name: str) -> None:
        """A subscribe that is sent what is retained, whatever the options of others."""
        self.lines.append(self.with_qos(
            {"do": "subscribe", "client": self.someone(), "filter": name}))

    def many_retained(self) -> None:
        writer = self.someone()
        self.lines += [{"do": "publish", "client": writer, "topic": f"m/{number}",
                        "payload": str(number), "retain": True} for number in range(MANY)]
        self.look("m/#" if self.use.has("wildcards") else "m/0")

    # -- scenes in which a part of the time passes, or all of it

    def clock_scene(self) -> bool:
        """Whether there can be one."""
        use = self.use
        scenes = [self.session_ends] if use.has("sessions") and not use.has(OLD_SESSIONS) else []
        if use.has("expiry"):
            scenes += [self.waiting_message_expires] if use.has("sessions") else []
            scenes += [self.retained_message_expires] if use.has("retained") else []
        if scenes:
            over = self.chance.random() < 0.6
            self.chance.choice(scenes)(*((ENDS, LONGER) if over else (KEPT, PART)))
        return bool(scenes)

    def advance(self, seconds: int) -> None:
        self.lines.append({"do": "advance", "seconds": seconds})

    def session_ends(self, seconds: int, pause: int) -> None:
        client, topic = self.someone(), self.names.topics[0]
        self.connect(client, **self.kept(seconds))
        self.subscribe(client, filter=topic)
        self.leave(client)
        self.advance(pause)
        self.connect(client, clean=False)
        self.publish(client, topic=topic)

    def waiting_message_expires(self, seconds: int, pause: int) -> None:
        client, topic = self.someone(), self.names.topics[0]
        self.connect(client, **self.kept())
        self.subscribe(client, filter=topic, **self.best_qos())
        self.leave(client)
        self.publish(self.someone(), topic=topic, payload="1", expiry=seconds, **self.best_qos())
        self.advance(pause)
        self.connect(client, **self.kept() | {"clean": False})

    def retained_message_expires(self, seconds: int, pause: int) -> None:
        topic = self.names.topics[0]
        self.publish(self.someone(), topic=topic, payload="1", expiry=seconds, retain=True)
        self.advance(pause)
        self.subscribe(self.someone(), filter=topic)
