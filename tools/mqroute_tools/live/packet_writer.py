"""Packets as a client sends them, written byte by byte: also those that no library writes."""
from collections.abc import Callable, Iterable, Mapping
from typing import Any, NamedTuple

from . import packets

PINGREQ = b"\xc0\0"
LEVELS = {packets.MQTT_5: 5, packets.MQTT_3_1_1: 4}  # of the protocol
LONGEST_TEXT = 65_535  # bytes
CLEAN, WILL, WILL_QOS, WILL_RETAIN, PASSWORD, USER = 2, 4, 3, 32, 64, 128  # flags of CONNECT


def number(value: int) -> bytes:
    """A Variable Byte Integer."""
    written = b""
    while True:
        value, low = divmod(value, 128)
        written += bytes([low | (128 if value else 0)])
        if not value:
            return written


def binary(value: bytes) -> bytes:
    return len(value).to_bytes(2, "big") + value


def data(value: bytes | str) -> bytes:
    return binary(value.encode("utf-8") if isinstance(value, str) else value)


def text(value: str) -> bytes:
    return binary(value.encode("utf-8"))


def whole(size: int) -> Callable[[int], bytes]:
    return lambda value: value.to_bytes(size, "big")


def pair(value: Iterable[str]) -> bytes:
    return b"".join(map(text, value))


def packet(first: int, *parts: bytes) -> bytes:
    body = b"".join(parts)
    return bytes([first]) + number(len(body)) + body


# Properties by a name of ours: their number, how they are written, and whether there may be more.
PROPERTIES: dict[str, tuple[int, Callable[[Any], bytes]]] = {
    "payload_format": (1, whole(1)), "expiry": (2, whole(4)), "content_type": (3, text),
    "response_topic": (8, text), "correlation": (9, data), "id": (11, number),
    "session_expiry": (17, whole(4)), "will_delay": (24, whole(4)),
    "receive_maximum": (33, whole(2)), "user_properties": (38, pair)}


def properties(given: Mapping[str, Any]) -> bytes:
    """Those that are given, of what PROPERTIES has; of `user_properties` each pair."""
    written = b""
    for name, (key, write) in PROPERTIES.items():
        values = given[name] if name == "user_properties" and name in given else [given.get(name)]
        written += b"".join(number(key) + write(value) for value in values if value is not None)
    return number(len(written)) + written


class Login(NamedTuple):
    user: str | None = None
    password: str | None = None


class Writer:
    """Of one version of MQTT: 3.1.1 has no properties."""

    def __init__(self, protocol: str = packets.MQTT_5) -> None:
        self.protocol = protocol

    def properties(self, given: Mapping[str, Any]) -> bytes:
        return properties(given) if self.protocol == packets.MQTT_5 else b""

    def connect(self, client: str, keep_alive: int, login: Login = Login(), clean: bool = True,
                will: Mapping[str, Any] | None = None, **more: Any) -> bytes:
        flags = CLEAN if clean else 0
        end = text(client)
        if will is not None:
            flags |= WILL | will.get("qos", 0) << WILL_QOS | (WILL_RETAIN if will.get("retain")
                                                              else 0)
            end += self.properties(will) + text(will["topic"]) + text(will.get("payload", ""))
        for flag, held in ((USER, login.user), (PASSWORD, login.password)):
            if held is not None:
                flags |= flag
                end += text(held)
        return packet(packets.CONNECT << 4, text("MQTT"), bytes([LEVELS[self.protocol], flags]),
                      whole(2)(keep_alive), self.properties(more), end)

    def subscribe(self, mid: int, filters: Iterable[Mapping[str, Any]], **more: Any) -> bytes:
        """Each of the filters with its options, as a subscribe of a script has them."""
        named = b"".join(text(one["filter"]) + bytes([self.options(one)]) for one in filters)
        return packet(packets.SUBSCRIBE << 4 | 2, whole(2)(mid), self.properties(more), named)

    def options(self, one: Mapping[str, Any]) -> int:
        byte = int(one.get("qos", 0))
        if self.protocol == packets.MQTT_5:
            byte |= bool(one.get("no_local")) << 2 | bool(one.get("rap")) << 3
            byte |= int(one.get("handling", 0)) << 4
        return byte

    def unsubscribe(self, mid: int, filters: Iterable[str]) -> bytes:
        return packet(packets.UNSUBSCRIBE << 4 | 2, whole(2)(mid), self.properties({}),
                      b"".join(map(text, filters)))

    def publish(self, mid: int, topic: str, payload: bytes, qos: int = 0, retain: bool = False,
                dup: bool = False, **more: Any) -> bytes:
        first = packets.PUBLISH << 4 | dup << 3 | qos << 1 | retain
        return packet(first, text(topic), whole(2)(mid) if qos else b"", self.properties(more),
                      payload)

    def acknowledge(self, kind: int, mid: int) -> bytes:
        return packet(kind << 4 | (2 if kind == packets.PUBREL else 0), whole(2)(mid))

    def disconnect(self, reason: int = 0, **more: Any) -> bytes:
        if self.protocol != packets.MQTT_5 or not (reason or more):
            return packet(packets.DISCONNECT << 4)
        return packet(packets.DISCONNECT << 4, bytes([reason]), self.properties(more))
