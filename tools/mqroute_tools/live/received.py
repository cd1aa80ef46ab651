"""Packets of a broker, read as what they say."""
from typing import Any, NamedTuple

from . import packets
from .broker_diff import Copy


class Received(NamedTuple):
    kind: int
    flags: int = 0  # behind the kind: of a PUBLISH DUP, QoS and RETAIN
    mid: int = 0
    reasons: tuple[int, ...] = ()
    topic: str = ""
    payload: bytes = b""
    properties: dict[str, list[Any]] = {}

    @property
    def qos(self) -> int:
        return self.flags >> 1 & 3

    def copy(self, client: str) -> Copy:
        """As a copy for this client."""
        expiry = self.properties.get("Message Expiry Interval", [None])[0]
        return Copy(client, self.topic, self.qos, bool(self.flags & 1),
                    self.payload.decode("utf-8", "replace"),
                    self.properties.get("Subscription Identifier", []), expiry)


def read(first: int, body: bytes, protocol: str) -> Received:
    """A packet that has no fault."""
    kind, flags, reader = first >> 4, first & 15, packets.Reader(body)
    is_5 = protocol == packets.MQTT_5
    if kind == packets.PUBLISH:
        topic, mid = reader.text(), reader.number(2) if flags >> 1 & 3 else 0
        held = packets.properties(reader, kind) if is_5 else {}
        return Received(kind, flags, mid, (), topic, body[reader.at:], held)
    if kind == packets.CONNACK:
        present, reason = reader.number(1), reader.number(1)
        held = packets.properties(reader, kind) if is_5 else {}
        return Received(kind, present, 0, (reason,), properties=held)
    if kind in (packets.SUBACK, packets.UNSUBACK):
        mid = reader.number(2)
        held = packets.properties(reader, kind) if is_5 else {}
        return Received(kind, flags, mid, tuple(body[reader.at:]), properties=held)
    if kind in packets.ACKNOWLEDGED:
        return Received(kind, flags, reader.number(2), tuple(body[2:3] or b"\0"))
    said = body[:1] if kind == packets.DISCONNECT else b""
    return Received(kind, flags, reasons=tuple(said or b"\0"))
