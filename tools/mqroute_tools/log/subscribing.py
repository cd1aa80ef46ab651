"""From the lines of a SUBSCRIBE or UNSUBSCRIBE to its commands: `<tab>FILTER (QoS N)`, then
`CLIENT GRANTED FILTER`."""
from ..script.output import Command
from . import mosquitto_log as log
from .broker_state import publish
from .clients import Arrival, Clients


class Subscribing(Clients):
    def __init__(self, session_expiry: int) -> None:
        super().__init__(session_expiry)
        self.arrival: Arrival | None = None
        self.packet: tuple[str, str, int] | None = None  # subscribe or unsubscribe, client, place
        self.asked: tuple[str, int] | None = None  # filter and QoS, until the broker has granted it

    def listed(self, text: str) -> bool:
        """A line that begins with a tab: a filter, or the topic of a will."""
        if self.arrival and self.arrival.will_head:
            head = self.arrival.will_head
            self.arrival.will = publish("", text, int(head[1]), int(head[3]), head[2] == "1")
            return True
        if self.packet is None:
            return False
        kind, client, place = self.packet
        if kind == "unsubscribe":
            self.unsubscribe(place, client, text)
            self.asked = (text, -1)
            return True
        self.grant(None)
        found = log.FILTER.match(text)
        if found:
            self.asked = (found[1], int(found[2]))
        return found is not None

    def granted(self, text: str) -> bool:
        """The line with which the broker closes one filter of a SUBSCRIBE or UNSUBSCRIBE."""
        if self.packet is None or self.asked is None:
            return False
        client, name = self.packet[1], self.asked[0]
        if self.asked[1] < 0:
            return text == f"{client} {name}"
        if not (text.startswith(client + " ") and text.endswith(" " + name)):
            return False
        word = text[len(client) + 1:-len(name) - 1]
        if word.isascii() and log.is_number(word):
            self.grant(int(word))
            return True
        return False

    def grant(self, qos: int | None) -> None:
        """Writes the subscribe that was asked for, with the QoS granted, or as
        asked where no line shows it."""
        if self.packet and self.asked and self.asked[1] >= 0:
            kind, client, place = self.packet
            qos = self.asked[1] if qos is None else qos
            if qos > 2:
                self.notes.add("subscribes that the broker refused: they are not in the script",
                               f"line {self.place}: {client} {self.asked[0]}")
            else:
                self.subscribe(place, client, self.asked[0], qos)
        self.asked = None

    def subscribe(self, place: int, client: str, name: str, qos: int) -> None:
        """A bridge is never sent its own messages, and gets RETAIN as it was published."""
        session = self.session(client)
        command: Command = (
            {"do": "subscribe", "client": client, "filter": name} | ({"qos": qos} if qos else {}))
        if session.bridge:
            command |= (
                {"rap": True} if name.startswith("$share/") else {"no_local": True, "rap": True})
        session.add(name)
        self.emit(place, command)

    def unsubscribe(self, place: int, client: str, name: str) -> None:
        self.emit(place, {"do": "unsubscribe", "client": client, "filter": name})
        self.session(client).drop(name)

    def bridge_subscribes(self, client: str, name: str) -> None:
        """Within the broker that has the bridge. The log has no QoS here: with 2 each
        copy has that of its publish."""
        if client not in self.connected:
            self.connect(Arrival(self.place, client, bridge=True), client, None, False, 4,
                         client in self.away)
        self.subscribe(self.place, client, name, 2)
