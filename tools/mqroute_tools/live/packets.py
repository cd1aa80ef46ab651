"""What is wrong with a packet that a broker sends, by sections 2 and 3 of MQTT 5.0 or 3.1.1."""
from collections.abc import Callable
from typing import Any, NamedTuple

CONNECT, CONNACK, PUBLISH, PUBACK, PUBREC, PUBREL, PUBCOMP = 1, 2, 3, 4, 5, 6, 7
SUBSCRIBE, SUBACK, UNSUBSCRIBE, UNSUBACK, PINGRESP, DISCONNECT, AUTH = 8, 9, 10, 11, 13, 14, 15
NAMES = {CONNACK: "CONNACK", PUBLISH: "PUBLISH", PUBACK: "PUBACK", PUBREC: "PUBREC",
         PUBREL: "PUBREL", PUBCOMP: "PUBCOMP", SUBACK: "SUBACK", UNSUBACK: "UNSUBACK",
         PINGRESP: "PINGRESP", DISCONNECT: "DISCONNECT"}
AWAITED = (PUBACK, PUBREC, PUBCOMP, SUBACK, UNSUBACK)  # by what was sent
ACKNOWLEDGED = (PUBACK, PUBREC, PUBREL, PUBCOMP)
MQTT_5, MQTT_3_1_1 = "5", "3.1.1"
FAILURE = 128  # the reason codes from here on say that something failed
# The reason codes of success, and those of failure.
SUCCESS = {CONNACK: (0,), PUBACK: (0, 16), PUBREC: (0, 16), PUBREL: (0,), PUBCOMP: (0,),
           SUBACK: (0, 1, 2), UNSUBACK: (0, 17), DISCONNECT: (0,)}
FAILURES = {
    CONNACK: (*range(128, 139), 140, 144, 149, 151, 153, 154, 155, 156, 157, 159),
    PUBACK: (128, 131, 135, 144, 145, 151, 153), PUBREC: (128, 131, 135, 144, 145, 151, 153),
    PUBREL: (146,), PUBCOMP: (146,), SUBACK: (128, 131, 135, 143, 145, 151, 158, 161, 162),
    UNSUBACK: (128, 131, 135, 143, 145),
    DISCONNECT: (*range(128, 132), 135, 137, 139, 141, 142, 143, 144, *range(147, 163))}
WORDS = {  # of reasons that a connection ends with
    128: "unspecified error", 129: "malformed packet", 130: "protocol error",
    131: "implementation specific error", 132: "unsupported protocol version",
    133: "client identifier not valid", 134: "bad user name or password", 135: "not authorized",
    136: "server unavailable", 137: "server busy", 139: "server shutting down",
    141: "keep alive timeout", 142: "session taken over", 143: "topic filter invalid",
    144: "topic name invalid", 147: "receive maximum exceeded", 148: "topic alias invalid",
    149: "packet too large", 150: "message rate too high", 151: "quota exceeded",
    152: "administrative action", 153: "payload format invalid", 154: "retain not supported",
    155: "QoS not supported", 156: "use another server", 157: "server moved",
    158: "shared subscriptions not supported", 159: "connection rate exceeded"}


class Malformed(Exception):
    """What is wrong, in words that go on after the name of the packet."""


def in_words(reason: int) -> str:
    return f"{reason} ({WORDS[reason]})" if reason in WORDS else str(reason)


class Reader:
    """A packet behind its fixed header, read from its beginning on."""

    def __init__(self, data: bytes) -> None:
        self.data, self.at = data, 0

    def take(self, size: int) -> bytes:
        if self.at + size > len(self.data):
            raise Malformed("that is cut short")
        self.at += size
        return self.data[self.at - size:self.at]

    def number(self, size: int) -> int:
        return int.from_bytes(self.take(size), "big")

    def variable(self) -> int:
        """A Variable Byte Integer."""
        value = 0
        for place in range(4):
            byte = self.number(1)
            value |= (byte & 127) << 7 * place
            if byte < 128:
                return value
        raise Malformed("with a Variable Byte Integer of over 4 bytes")

    def binary(self) -> bytes:
        return self.take(self.number(2))

    def text(self) -> str:
        data = self.binary()
        try:
            text = data.decode("utf-8")
        except UnicodeDecodeError as fault:
            raise Malformed(f"with a text that is not UTF-8 ({data.hex(' ')})") from fault
        if "\0" in text:
            raise Malformed("with a text that has U+0000")
        return text

    def is_at_end(self) -> bool:
        return self.at == len(self.data)


class Property(NamedTuple):
    name: str
    read: Callable[[Reader], Any]
    packets: tuple[int, ...]
    low: int = 0
    high: int | None = None
    repeated: bool = False


def one(reader: Reader) -> int:
    return reader.number(1)


def two(reader: Reader) -> int:
    return reader.number(2)


def four(reader: Reader) -> int:
    return reader.number(4)


def pair(reader: Reader) -> tuple[str, str]:
    return reader.text(), reader.text()


ALL = (CONNACK, PUBLISH, *ACKNOWLEDGED, SUBACK, UNSUBACK, DISCONNECT)
REASONED = tuple(kind for kind in ALL if kind != PUBLISH)
IN_CONNACK, IN_PUBLISH = (CONNACK,), (PUBLISH,)
PROPERTIES = {  # those that a broker may send
    1: Property("Payload Format Indicator", one, IN_PUBLISH, high=1),
    2: Property("Message Expiry Interval", four, IN_PUBLISH),
    3: Property("Content Type", Reader.text, IN_PUBLISH),
    8: Property("Response Topic", Reader.text, IN_PUBLISH),
    9: Property("Correlation Data", Reader.binary, IN_PUBLISH),
    11: Property("Subscription Identifier", Reader.variable, IN_PUBLISH, low=1, repeated=True),
    17: Property("Session Expiry Interval", four, IN_CONNACK),
    18: Property("Assigned Client Identifier", Reader.text, IN_CONNACK),
    19: Property("Server Keep Alive", two, IN_CONNACK),
    21: Property("Authentication Method", Reader.text, IN_CONNACK),
    22: Property("Authentication Data", Reader.binary, IN_CONNACK),
    26: Property("Response Information", Reader.text, IN_CONNACK),
    28: Property("Server Reference", Reader.text, (CONNACK, DISCONNECT)),
    31: Property("Reason String", Reader.text, REASONED),
    33: Property("Receive Maximum", two, IN_CONNACK, low=1),
    34: Property("Topic Alias Maximum", two, IN_CONNACK),
    36: Property("Maximum QoS", one, IN_CONNACK, high=1),
    37: Property("Retain Available", one, IN_CONNACK, high=1),
    38: Property("User Property", pair, ALL, repeated=True),
    39: Property("Maximum Packet Size", four, IN_CONNACK, low=1),
    40: Property("Wildcard Subscription Available", one, IN_CONNACK, high=1),
    41: Property("Subscription Identifiers Available", one, IN_CONNACK, high=1),
    42: Property("Shared Subscription Available", one, IN_CONNACK, high=1)}


def properties(reader: Reader, packet: int) -> dict[str, list[Any]]:
    """Their values by name. Raises Malformed where one isn't as it has to be."""
    inside = Reader(reader.take(reader.variable()))
    seen: dict[str, list[Any]] = {}
    while not inside.is_at_end():
        key = inside.variable()
        known = PROPERTIES.get(key)
        if known is None or packet not in known.packets:
            raise Malformed(f"with property {key}, which it can't have")
        value = known.read(inside)
        if known.name in seen and not known.repeated:
            raise Malformed(f"with two of {known.name}")
        if isinstance(value, int) and (value < known.low or value > (known.high or value)):
            raise Malformed(f"with a {known.name} of {value}")
        seen.setdefault(known.name, []).append(value)
    return seen


def packet_identifier(reader: Reader) -> int:
    number = reader.number(2)
    if not number:
        raise Malformed("with the packet identifier 0")
    return number


def reason(reader: Reader, packet: int) -> int:
    code = reader.number(1)
    if code not in SUCCESS[packet] and code not in FAILURES[packet]:
        raise Malformed(f"with reason {code}, which it can't have")
    return code


def check_publish(flags: int, reader: Reader, protocol: str) -> None:
    qos = flags >> 1 & 3
    if qos == 3:
        raise Malformed("with QoS 3")
    if not qos and flags & 8:
        raise Malformed("with QoS 0 and DUP")
    topic = reader.text()
    if not topic or "+" in topic or "#" in topic:
        raise Malformed(f"with the topic {topic!r}")
    if qos:
        packet_identifier(reader)
    if protocol == MQTT_5:
        properties(reader, PUBLISH)


def check_acknowledgement(packet: int, reader: Reader, protocol: str) -> None:
    """PUBACK and the like: without a reason it's 0."""
    packet_identifier(reader)
    if protocol == MQTT_5 and not reader.is_at_end():
        reason(reader, packet)
        if not reader.is_at_end():
            properties(reader, packet)


def check_subscribed(packet: int, reader: Reader, protocol: str, filters: int) -> None:
    """SUBACK and UNSUBACK of so many filters."""
    packet_identifier(reader)
    if protocol == MQTT_5:
        properties(reader, packet)
    elif packet == UNSUBACK:
        return
    if reader.is_at_end():
        raise Malformed("without a reason")
    for _ in range(filters):
        reason(reader, packet)


def check_connack(reader: Reader, protocol: str) -> None:
    if protocol == MQTT_5 and len(reader.data) == 2:
        raise Malformed("of MQTT 3.1.1, which has no properties (--protocol 3.1.1)")
    flags = reader.number(1)
    if flags > 1:
        raise Malformed(f"with the flags {flags}")
    if protocol == MQTT_5:
        reason(reader, CONNACK)
        properties(reader, CONNACK)
    elif reader.number(1) > 5:
        raise Malformed("with a return code over 5")


def check_disconnect(reader: Reader, protocol: str) -> None:
    if protocol != MQTT_5:
        raise Malformed("which MQTT 3.1.1 doesn't have from a broker")
    if not reader.is_at_end():
        reason(reader, DISCONNECT)
        if not reader.is_at_end():
            properties(reader, DISCONNECT)


def check(first: int, reader: Reader, protocol: str, filters: int) -> None:
    """Raises Malformed where the packet isn't as it has to be."""
    packet, flags = first >> 4, first & 15
    if packet == PUBLISH:
        return check_publish(flags, reader, protocol)
    if flags != (2 if packet == PUBREL else 0):
        raise Malformed(f"with the flags {flags}")
    if packet == CONNACK:
        check_connack(reader, protocol)
    elif packet in ACKNOWLEDGED:
        check_acknowledgement(packet, reader, protocol)
    elif packet in (SUBACK, UNSUBACK):
        check_subscribed(packet, reader, protocol, filters)
    elif packet == DISCONNECT:
        check_disconnect(reader, protocol)
    if not reader.is_at_end():
        raise Malformed(f"with {len(reader.data) - reader.at} bytes too many")


def with_article(name: str) -> str:
    return f"an {name}" if name.startswith("U") else f"a {name}"


def fault(first: int, body: bytes, protocol: str, filters: int = 1) -> str:
    """What is wrong with the packet of this first byte; empty where nothing is. `filters` is how
    many a SUBACK or UNSUBACK answers."""
    name = NAMES.get(first >> 4)
    if name is None:
        return f"a packet that begins with {first:02x}, which no broker sends"
    try:
        check(first, Reader(body), protocol, filters)
    except Malformed as malformed:
        return f"{with_article(name)} {malformed}"
    return ""
