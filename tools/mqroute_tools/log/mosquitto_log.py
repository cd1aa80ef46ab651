"""What the lines of a mosquitto 2.0 log say (log_type all), one event a line."""
import re
from collections.abc import Container, Iterator, Sequence
from contextlib import suppress
from itertools import chain, product
from typing import BinaryIO, NamedTuple, TypeVar

Kept = TypeVar("Kept")
LINE_MAX = 65_536  # far over what mosquitto writes: it cuts its lines at 1,000 bytes
CUT_AT = 999


def blocks(stream: BinaryIO) -> Iterator[bytes]:
    """Lines with their ends, many at a time; of one that is far too long the beginning."""
    rest = b""
    while piece := stream.read(LINE_MAX):
        block = rest[:LINE_MAX] + piece
        end = block.rfind(b"\n") + 1
        rest = block[end:]
        if end:
            yield block[:end]
    if rest:
        yield rest + b"\n"


def cut(line: bytes) -> bytes:
    return line[:LINE_MAX].rstrip(b"\r")


def lines_of(block: bytes) -> list[bytes]:
    lines = block[:-1].split(b"\n")
    if b"\r" in block or max(map(len, lines)) > LINE_MAX:
        return list(map(cut, lines))
    return lines


def raw_lines(stream: BinaryIO) -> Iterator[bytes]:
    """The lines without their ends; of one that is far too long only the beginning."""
    for block in blocks(stream):
        yield from lines_of(block)


def texts(stream: BinaryIO) -> Iterator[str | bytes]:
    """The same lines as texts, and those that are not UTF-8 as they stand."""
    return chain.from_iterable(map(texts_of, blocks(stream)))


def texts_of(block: bytes) -> Sequence[str | bytes]:
    """All at once where no line is to be cut; a character has at most four bytes."""
    if b"\r" not in block:
        with suppress(UnicodeDecodeError):
            lines = block[:-1].decode("utf-8").split("\n")
            if 4 * max(map(len, lines)) <= LINE_MAX:
                return lines
    return list(map(text_of, lines_of(block)))


def text_of(line: bytes) -> str | bytes:
    try:
        return line.decode("utf-8")
    except UnicodeDecodeError:
        return line


def readable(line: str | bytes) -> str:
    return line if isinstance(line, str) else line.decode("utf-8", "replace")


# The client id is free text, and so may look like any other part of a line. Each form below is read
# with its fixed words at both ends; where more than one reading is left, the clients that are
# connected decide.

MOST_DIGITS = 19  # far over those of any number in a line
NUMBER = rf"\d{{1,{MOST_DIGITS}}}"
PUBLISH_HEAD = re.compile(rf" \(d([01]), q([0-2]), r([01]), m({NUMBER}), '")
COPY, RECEIVED, DENIED = "Sending PUBLISH to ", "Received PUBLISH from ", "Denied PUBLISH from "
TOPIC_AND_SIZE = re.compile(rf"(.*)', \.\.\. \(({NUMBER}) bytes\)\)")
PUBLISH_END = re.compile(rf"', \.\.\. \(({NUMBER}) bytes\)\)$")
CONNECTED = re.compile(rf" \(p({NUMBER}), c([01]), k{NUMBER}(?:, u'(.*)')?\)\.$")
CONNACK = re.compile(rf"(.*) \(([01]), ({NUMBER})\)$")
RELEASE = re.compile(rf"(.*) \(Mid: ({NUMBER})\)$")
ACKNOWLEDGED = re.compile(rf"(.*) \(Mid: ({NUMBER}), RC:{NUMBER}\)$")
ANSWERED = re.compile(rf"(.*) \(m({NUMBER})(?:, rc{NUMBER})?\)$")
FILTER = re.compile(r"(.*) \(QoS ([0-2])\)$")
WILL = re.compile(rf"Will message specified \(({NUMBER}) bytes\) \(r([01]), q([0-2])\)\.$")
ENDS = tuple(re.compile(p) for p in (
    r"Client (.*) disconnected\.$",
    r"Client (.*) closed its connection\.$",
    r"Client (.*) has exceeded timeout, disconnecting\.$",
    r"Client (.*) disconnected: [A-Za-z0-9 ,/'()-]+\.$",
    r"Client (.*) disconnected due to [A-Za-z ]+\.$",
    r"Client (.*) disconnected, not authorised\.$",
    r"Client (.*) been disconnected by administrative action\.$",
    r"Bad socket read/write on client (.*): [A-Za-z0-9 ,/'()-]+$",
    r"Socket error on client (.*), disconnecting\.$",
))
# Lines that a log has many of begin so; by so many characters they differ from one another.
DISTINCT = 15
RELEASED, CONNACK_SENT = "Received PUBREL from ", "Sending CONNACK to "
SUBACK_SENT, UNSUBACK_SENT = "Sending SUBACK to ", "Sending UNSUBACK to "
ARRIVED, WILL_LESS = "New connection from ", "No will message specified."
# Of these a script has nothing.
ACKNOWLEDGEMENTS_SENT = ("Sending PUBACK to ", "Sending PUBREC to ", "Sending PUBCOMP to ")
RELEASE_SENT, RECEPTION = "Sending PUBREL to ", "Received PUBREC from "
ACKNOWLEDGEMENTS = ("Received PUBACK from ", "Received PUBCOMP from ")
# Lines with nothing that a script has.
PASSED_OVER = (
    "Sending ", "New connection from ", "No will message specified.",
    "Received PINGREQ from ", "Received PUBACK from ", "Received PUBREC from ",
    "Received PUBCOMP from ", "Received AUTH from ",
    "Config loaded from ", "Loading config file ", "Opening ", "Saving in-memory database to ",
    "mosquitto version ",
    "Invalid subscription string from ", "Empty subscription string from ",
    "Invalid unsubscription string from ", "Empty unsubscription string from ",
    "Warning: ", "Note: ", "To fix this, use ", "Client <unknown> ", "Client connection from ",
    "OpenSSL Error", "ACL denying access to client with dangerous ",
    "Connecting bridge ", "Received CONNACK on connection ",
)
# Lines that concern the script and give no command.
NOTED = (
    ("Reloading config.",
     "times the broker read its configuration again: the access list may have changed here"),
    ("Dropped too large PUBLISH from ",
     "publishes were too large for the broker, which dropped them: they are not in the script"),
    ("Outgoing messages are being dropped for client ",
     "times the broker began to drop copies for a client since too many waited: the script has no "
     "such limit (mqroute's is --max-queued)"),
)
LOCAL_SUBSCRIBE = re.compile(r"Bridge (.*) doing local SUBSCRIBE on topic (.*)$")
BRIDGE_SENDS = re.compile(r"Bridge (.*) sending (?:CONNECT|SUBSCRIBE|UNSUBSCRIBE)(?: \(.*\))?$")
REUSED = re.compile(rf"Reused message ID ({NUMBER}) from (.*) detected\. Clearing from storage\.$")
EXPIRED = re.compile(r"Expiring client (.*) due to timeout\.$")
TAKEN_OVER = re.compile(r"Client (.*) already connected, closing old connection\.$")


class Publish(NamedTuple):
    """What a line shows of a PUBLISH packet, received, denied or sent."""
    client: str
    dup: int
    qos: int
    retain: int
    packet: int
    topic: str
    size: int
    readings: int = 1  # in how many ways it can be read, by the clients that are connected


REMEMBERED = 10_000
# Texts that come again and again: of QoS 0 all of a line, since there is no packet identifier,
OF_QOS_0: dict[str, Publish] = {}
# and of all lines what stands behind that, with its topic and size.
TOPICS: dict[str, tuple[str, int]] = {}
# DUP, QoS and RETAIN, by how a line has them.
FLAGS = {f"{dup}, q{qos}, r{retain}, m": (dup, qos, retain)
         for dup, qos, retain in product((0, 1), (0, 1, 2), (0, 1))}
FLAGS_END = len("0, q0, r0, m")


def read_publish(text: str, known: Container[str]) -> Publish | None:
    """`text` is what stands after `PUBLISH from ` or `PUBLISH to `, as in
    `kiosk (d0, q1, r0, m7, 'shop/door', ... (5 bytes))`."""
    found = OF_QOS_0.get(text)
    if found is not None:
        return found
    client, _, rest = text.partition(" (d")
    head, _, rest = rest.partition(", '")
    flags, packet = FLAGS.get(head[:FLAGS_END]), head[FLAGS_END:]
    named = TOPICS.get(rest) or topic_and_size(rest)
    if flags is None or named is None or not is_number(packet):
        return read_odd_publish(text, known)
    dup, qos, retain = flags
    found = Publish(client, dup, qos, retain, int(packet), *named)
    if qos == 0:
        remember(OF_QOS_0, text, found)
    return found


def is_number(text: str) -> bool:
    return text.isdecimal() and len(text) <= MOST_DIGITS


def topic_and_size(rest: str) -> tuple[str, int] | None:
    """None where the topic looks like the head of another reading."""
    found = TOPIC_AND_SIZE.fullmatch(rest) if " (d" not in rest else None
    if found is None:
        return None
    named = found[1], int(found[2])
    remember(TOPICS, rest, named)
    return named


def remember(texts: dict[str, Kept], text: str, found: Kept) -> None:
    if len(texts) >= REMEMBERED:
        texts.clear()
    texts[text] = found


def read_odd_publish(text: str, known: Container[str]) -> Publish | None:
    """The same where a client id or a topic looks like another part of the line."""
    end = PUBLISH_END.search(text, text.rfind("'"))
    if end is None:
        return None
    head = PUBLISH_HEAD.search(text)
    if head is None or head.end() > end.start():
        return None
    readings = 1
    if PUBLISH_HEAD.search(text, head.end()):
        heads = [h for h in PUBLISH_HEAD.finditer(text) if h.end() <= end.start()]
        likely = [h for h in heads if text[:h.start()] in known] or heads
        head, readings = likely[0], len(likely)
    dup, qos, retain, packet = map(int, head.groups())
    return Publish(text[:head.start()], dup, qos, retain, packet, text[head.end():end.start()],
                   int(end[1]), readings)


def ended_clients(text: str, *known: Container[str]) -> list[str]:
    """The clients, one but for the oddest ids, whose connection this line may end; none
    if it is of another kind."""
    named = [found[1] for found in (p.match(text) for p in ENDS) if found]
    return [n for n in named if any(n in those for those in known)] or named
