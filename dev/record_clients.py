#!/usr/bin/python3
"""The clients of record.sh: a plant's displays, meters and people, at random,
for about a minute."""
import random
import sys
import time
from pathlib import Path

sys.path.insert(0, str(Path(__file__).resolve().parents[1] / "tools"))
from mqroute_tools.live.paho_client import (  # noqa: E402
    Client, PacketTypes, Properties, SubscribeOptions, mqtt)

STEPS = 900
PAUSE = 0.05
# client id, user name, protocol
CLIENTS = [
    ("meter-17", None, mqtt.MQTTv5), ("meter-18", None, mqtt.MQTTv311),
    ("wall display", None, mqtt.MQTTv5), ("o'neil \"b\"", "ops", mqtt.MQTTv5),
    ("zähler (1, 2)", "ops", mqtt.MQTTv311), ("dash, board [3]", "plant manager", mqtt.MQTTv5),
    ("old", "plant manager", mqtt.MQTTv31), ("ops", "ops", mqtt.MQTTv5),
]
TOPICS = [f"plant/hall-{h}/{what}" for h in (1, 2, 3) for what in ("energy", "heat", "door")] + [
    "plant/hall 1/o'gate, \"north\"", "alarm/fire", "alarm/größe/名", "secret/plan",
    "own/meter-17/state", "own/ops/state", "users/ops/mail", "users/plant manager/mail", "plant//",
    "/", "lone"]
FILTERS = ["plant/#", "plant/+/energy", "plant/hall-1/+", "+/+/door", "#", "alarm/#",
           "alarm/größe/+", "secret/#", "own/+/state", "users/#", "plant/hall 1/o'gate, \"north\"",
           "plant/hall-2/heat", "+", "/+", "plant//"]
GROUPS = ["$share/shift a/plant/#", "$share/shift a/alarm/+", "$share/b/plant/+/energy"]


class Person:
    """One client of the broker; it may come, go, be cut off, or come a second time."""

    def __init__(self, name: str, user: str | None, protocol: int, port: int, kept: bool) -> None:
        self.name, self.user, self.protocol, self.port, self.kept = name, user, protocol, port, kept
        self.client: Client | None = None

    def come(self, will: bool = False) -> None:
        old, five = self.client, self.protocol == mqtt.MQTTv5
        client = Client(
            self.name, protocol=self.protocol, **({} if five else {"clean_session": not self.kept}))
        if self.user:
            client.username_pw_set(self.user, "")
        if will:
            client.will_set("alarm/fire", "gone", 1, False)
        more = {}
        if five and self.kept:
            more = {"clean_start": False, "properties": Properties(PacketTypes.CONNECT)}
            more["properties"].SessionExpiryInterval = 3600
        elif five:
            more = {"clean_start": True}
        client.connect("127.0.0.1", self.port, **more)
        client.loop_start()
        self.client = client
        time.sleep(0.1)
        if old:
            old.loop_stop()

    def go(self) -> None:
        if self.client:
            self.client.disconnect()
            self.client.loop_stop()
            self.client = None

    def cut(self) -> None:
        """Closes the connection without DISCONNECT: the will is published."""
        if self.client:
            self.client.loop_stop()
            self.client.socket().close()
            self.client = None
            time.sleep(0.1)

    def subscribe(self, dice: random.Random, filters: list[str]) -> None:
        asked = dice.sample(filters, dice.choice([1, 1, 1, 2]))
        if self.protocol != mqtt.MQTTv5:
            self.client.subscribe([(f, dice.randint(0, 2)) for f in asked])
            return
        plain = {f: dice.random() < 0.9 for f in asked}
        self.client.subscribe(
            [(f, SubscribeOptions(dice.randint(0, 2), retainAsPublished=not plain[f]))
             for f in asked])


def step(person: Person, dice: random.Random, filters: list[str]) -> None:
    roll = dice.random()
    if person.client is None:
        person.come(will=dice.random() < 0.3)
    elif roll < 0.02:
        person.go()
    elif roll < 0.035:
        person.cut()
    elif roll < 0.045:
        person.come()
    elif roll < 0.13:
        person.subscribe(dice, filters)
    elif roll < 0.17:
        person.client.unsubscribe(dice.choice(filters))
    else:
        person.client.publish(dice.choice(TOPICS), "x" * dice.choice([0, 2, 5, 300]),
                              dice.randint(0, 2), dice.random() < 0.3)


def main() -> None:
    kind, port = sys.argv[1], int(sys.argv[2])
    dice = random.Random(7)
    sessions = kind == "sessions"
    people = [Person(*c, port, sessions and i % 2 == 0) for i, c in enumerate(CLIENTS)]
    for person in people:
        person.come()
        person.subscribe(dice, FILTERS)
    for _ in range(STEPS):
        step(dice.choice(people), dice, FILTERS + GROUPS * 3 if sessions else FILTERS)
        time.sleep(dice.choice([0, PAUSE, 2 * PAUSE]))
    for person in people:
        person.go()


if __name__ == "__main__":
    main()
