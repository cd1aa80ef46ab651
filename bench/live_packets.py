"""A script of connects, subscribes and publishes as MQTT 5 packets, for live_client.c."""
import json
import struct

CONNECT, PUBLISH, SUBSCRIBE = 1, 3, 8
SESSION_EXPIRY, RECEIVE_MAXIMUM, MESSAGE_EXPIRY, IDENTIFIER = 0x11, 0x21, 0x02, 0x0B
CLEAN, HAS_USER = 0x02, 0x80
MOST_IDS = 60_000  # Of packets of a client, which has never so many under way.


def text(words):
    encoded = words.encode()
    return struct.pack(">H", len(encoded)) + encoded


def length(count):
    """A number in groups of seven bits, the lowest first."""
    groups = bytearray()
    while count > 127:
        groups.append(count & 127 | 128)
        count >>= 7
    return bytes(groups) + bytes([count])


def with_length(part):
    return length(len(part)) + part


def connect(fields):
    user = fields.get("user")
    flags = (CLEAN if fields.get("clean", True) else 0) | (0 if user is None else HAS_USER)
    properties = struct.pack(">BIBH", SESSION_EXPIRY, fields.get("session_expiry", 0),
                             RECEIVE_MAXIMUM, 65_535)
    return CONNECT << 4, (text("MQTT") + bytes([5, flags, 0, 0]) + with_length(properties)
                          + text(fields["client"]) + (b"" if user is None else text(user)))


def subscribe(fields, packet_id):
    options = (fields.get("qos", 0) | fields.get("no_local", False) << 2
               | fields.get("rap", False) << 3 | fields.get("handling", 0) << 4)
    properties = bytes([IDENTIFIER]) + length(fields["id"]) if "id" in fields else b""
    return SUBSCRIBE << 4 | 2, (packet_id + with_length(properties) + text(fields["filter"])
                                + bytes([options]))


def publish(fields, packet_id):
    qos, expiry = fields.get("qos", 0), fields.get("expiry")
    properties = b"" if expiry is None else struct.pack(">BI", MESSAGE_EXPIRY, expiry)
    return (PUBLISH << 4 | qos << 1 | fields.get("retain", False),
            text(fields["topic"]) + (packet_id if qos else b"") + with_length(properties)
            + fields.get("payload", "").encode())


def packet_of(fields, packet_id):
    """The first byte of a command's packet, and what stands behind its length."""
    kinds = {"subscribe": subscribe, "publish": publish}
    if fields["do"] == "connect":
        return connect(fields)
    return kinds[fields["do"]](fields, packet_id)


def packets(script):
    """The packets of the lines, each with its client's number and whether it is answered."""
    clients: dict[str, int] = {}
    ids: dict[int, int] = {}
    for line in script:
        fields = json.loads(line)
        client = clients.setdefault(fields["client"], len(clients))
        ids[client] = ids.get(client, 0) % MOST_IDS + 1
        first, body = packet_of(fields, struct.pack(">H", ids[client]))
        packet = bytes([first]) + with_length(body)
        is_answered = fields["do"] != "publish" or fields.get("qos", 0) > 0
        yield struct.pack("<IBI", client, is_answered, len(packet)) + packet
