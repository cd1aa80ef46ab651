#!/usr/bin/python3
"""The clients of record_mixed.sh: pages in browsers (websockets), phones that come back on another
connection, machines that run mosquitto_sub, and mosquitto_pub at random, for about a minute."""
import random
import subprocess
import sys
import time
from pathlib import Path

sys.path.insert(0, str(Path(__file__).resolve().parents[1] / "tools"))
from mqroute_tools.live.paho_client import (  # noqa: E402
    Client, PacketTypes, Properties, SubscribeOptions, mqtt)

STEPS = 700
PAUSE = 0.06
# client id, user name, protocol, whether its session is kept
PAGES = [("page/1", None, mqtt.MQTTv5, False), ("page 2", "guest", mqtt.MQTTv311, False),
         ("kiosk", "shop", mqtt.MQTTv5, True), ("phone (anna)", "anna", mqtt.MQTTv5, True),
         ("phone (bo)", "bo", mqtt.MQTTv311, True), ("tablet", "shop", mqtt.MQTTv311, False)]
TOPICS = ["shop/till/1", "shop/till/2", "shop/stock/bread", "shop/stock/milk", "shop/door", "news",
          "news/", "chat/anna/bo", "chat/bo/anna", "till/kiosk/paper", "will/page", "staff/rota"]
FILTERS = ["shop/#", "shop/+/bread", "shop/till/+", "news", "news/#", "chat/anna/+", "chat/+/anna",
           "chat/#", "+/+", "#", "will/#", "staff/#"]
MACHINES = [["-i", "printer", "-u", "shop", "-c", "-q", "1", "-t", "shop/till/#"],
            ["-i", "archive", "-u", "staff", "-V", "mqttv5", "-q", "2", "-t", "#", "--will-topic",
             "will/archive", "--will-payload", "gone"],
            ["-i", "board", "-q", "0", "-t", "news/#", "-t", "shop/stock/+"]]


class Page:
    """A client that comes by websockets or by TCP, and may come a second time while it is there."""

    def __init__(self, name: str, user: str | None, protocol: int, kept: bool,
                 ports: tuple[int, int]) -> None:
        self.name, self.user, self.protocol, self.kept, self.ports = (
            name, user, protocol, kept, ports)
        self.client: Client | None = None

    def come(self, dice: random.Random) -> None:
        web, old, five = dice.random() < 0.7, self.client, self.protocol == mqtt.MQTTv5
        client = Client(self.name, protocol=self.protocol, transport="websockets" if web else "tcp",
                        **({} if five else {"clean_session": not self.kept}))
        if self.user:
            client.username_pw_set(self.user, "")
        if dice.random() < 0.6:
            client.will_set(dice.choice(["will/page", "news", "staff/rota"]), "gone " + self.name,
                            dice.randint(0, 2), dice.random() < 0.2)
        more = {"clean_start": dice.random() < 0.2 or not self.kept,
                "properties": Properties(PacketTypes.CONNECT)} if five else {}
        if five and self.kept:
            more["properties"].SessionExpiryInterval = 3600
        client.connect("127.0.0.1", self.ports[web], **more)
        client.loop_start()
        self.client = client
        time.sleep(0.15)
        if old:
            old.loop_stop()

    def leave(self, politely: bool) -> None:
        if politely:
            self.client.disconnect()
            self.client.loop_stop()
        else:
            self.client.loop_stop()
            self.client.socket().close()
        self.client = None
        time.sleep(0.1)

    def step(self, dice: random.Random) -> None:
        roll = dice.random()
        if self.client is None or roll < 0.06:
            self.come(dice)
        elif roll < 0.10:
            self.leave(roll < 0.08)
        elif roll < 0.22:
            filters = dice.sample(FILTERS, dice.choice([1, 1, 2, 3]))
            plain = [(name, dice.randint(0, 2)) for name in filters]
            self.client.subscribe([(name, SubscribeOptions(qos)) for name, qos in plain]
                                  if self.protocol == mqtt.MQTTv5 else plain)
        elif roll < 0.27:
            self.client.unsubscribe(dice.choice(FILTERS))
        else:
            self.client.publish(dice.choice(TOPICS), "x" * dice.choice([0, 1, 40, 900]),
                                dice.randint(0, 2), dice.random() < 0.25)


class Machines:
    """What mosquitto_sub runs, each killed now and then and begun again; two at once take
    each other's session over."""

    def __init__(self, port: int) -> None:
        self.port = str(port)
        self.running: list[subprocess.Popen[bytes]] = []

    def start(self, words: list[str]) -> None:
        self.running.append(subprocess.Popen(["mosquitto_sub", "-p", self.port, *words],
                                             stdout=subprocess.DEVNULL, stderr=subprocess.DEVNULL))

    def step(self, dice: random.Random) -> None:
        words = dice.choice(MACHINES)
        same = [one for one in self.running if words[1] in one.args]
        if len(same) > 1 or same and dice.random() < 0.7:
            for one in same:  # two would take the session from each other again and again
                (one.kill if dice.random() < 0.5 else one.terminate)()
                one.wait()
                self.running.remove(one)
        else:
            self.start(words)

    def publish(self, dice: random.Random) -> None:
        subprocess.run(
            ["mosquitto_pub", "-p", self.port, "-i", f"pub{dice.randint(1, 3)}",
             *dice.choice([[], ["-u", "staff"], ["-V", "mqttv5"]]), "-q", str(dice.randint(0, 2)),
             "-t", dice.choice(TOPICS), *dice.choice([["-n"], ["-m", "hello"]]),
             *dice.choice([[], ["-r"]])], check=True, timeout=10)

    def end(self) -> None:
        for one in self.running:
            one.terminate()
            one.wait()


def main() -> None:
    port, web = int(sys.argv[1]), int(sys.argv[2])
    dice = random.Random(23)
    pages = [Page(*page, (port, web)) for page in PAGES]
    machines = Machines(port)
    for words in MACHINES:
        machines.start(words)
    for number in range(STEPS):
        dice.choice(pages).step(dice)
        if number % 20 == 0:
            machines.step(dice)
        if number % 9 == 0:
            machines.publish(dice)
        time.sleep(dice.choice([0, PAUSE, 2 * PAUSE]))
    for page in pages:
        if page.client:
            page.leave(True)
    machines.end()


if __name__ == "__main__":
    main()
