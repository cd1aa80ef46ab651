"""The packets of the small broker: MQTT 5 on TCP."""
import asyncio
import contextlib
from dataclasses import replace

from broker import INVALID_FILTER, INVALID_TOPIC, PROTOCOL_ERROR, Message, Subscription
from mqroute_tools.live import packets
from mqroute_tools.live.packet_writer import number, packet, properties, text, whole
from mqroute_tools.live.packets import Malformed, Reader

MALFORMED, NOT_SUPPORTED = 129, 132
TICK = 0.1  # seconds
READ = {  # properties of a client, by number: a name of packet_writer's, and how they are read
    1: ("payload_format", packets.one), 2: ("expiry", packets.four),
    3: ("content_type", Reader.text), 8: ("response_topic", Reader.text),
    9: ("correlation", Reader.binary), 11: ("id", Reader.variable),
    17: ("session_expiry", packets.four), 24: ("will_delay", packets.four),
    33: ("receive_maximum", packets.two), 38: ("user_properties", packets.pair),
    25: ("request_response", packets.one), 23: ("request_problem", packets.one),
    34: ("topic_alias_maximum", packets.two), 39: ("maximum_packet_size", packets.four),
    31: ("reason", Reader.text)}
PASSED_ON = ("payload_format", "content_type", "response_topic", "correlation", "user_properties")


class Refused(Exception):
    """The connection ends with a DISCONNECT of this reason."""

    def __init__(self, reason):
        super().__init__(reason)
        self.reason = reason


def read_properties(reader):
    inside, found = Reader(reader.take(reader.variable())), {}
    while not inside.is_at_end():
        key = inside.variable()
        if key not in READ:
            raise Refused(MALFORMED)
        name, read = READ[key]
        value = read(inside)
        if name == "user_properties":
            found.setdefault(name, []).append(value)
        else:
            found[name] = value
    return found


class Connection:
    def __init__(self, broker, reader, writer):
        self.broker, self.reader, self.writer = broker, reader, writer
        self.session = None
        self.mid = 0
        self.received = set()  # packet identifiers of QoS 2 that aren't released
        self.is_closed = False

    # -- out

    def write(self, data):
        if not self.is_closed:
            self.writer.write(data)

    def close(self, reason=None):
        if reason is not None and self.session is not None:
            self.write(packet(packets.DISCONNECT << 4, bytes([reason, 0])))
        self.is_closed = True
        self.writer.close()

    def next_mid(self):
        self.mid = self.mid % 65_535 + 1
        return self.mid

    def send_copy(self, copy, has_waited, dup=False):
        mid = self.next_mid() if copy.qos else 0
        if mid:
            self.session.unanswered[mid] = copy
        message = copy.message
        expiry = self.broker.left(copy, has_waited)
        given = dict(self.passed_on(message)) | ({} if expiry is None else {"expiry": expiry})
        written = properties(given)
        size = written[1:] if written[0] < 128 else written[2:]
        size += b"".join(number(11) + number(one) for one in copy.ids)
        first = packets.PUBLISH << 4 | dup << 3 | copy.qos << 1 | copy.retain
        self.write(packet(first, text(message.topic), whole(2)(mid) if copy.qos else b"",
                          number(len(size)), size, message.payload))

    def passed_on(self, message):
        return [(name, value) for name, value in message.properties]

    # -- in

    async def packet(self):
        first = (await self.reader.readexactly(1))[0]
        size = shift = 0
        while True:
            byte = (await self.reader.readexactly(1))[0]
            size |= (byte & 127) << shift
            shift += 7
            if byte < 128:
                break
        return first, Reader(await self.reader.readexactly(size))

    async def run(self):
        reason, left = None, False
        try:
            first, reader = await self.packet()
            if first >> 4 != packets.CONNECT or not self.connected(reader):
                return
            while not left:
                first, reader = await self.packet()
                left, reason = self.handle(first, reader)
                await self.writer.drain()
        except Refused as refused:
            self.close(refused.reason)
        except Malformed:
            self.close(MALFORMED)
        except (OSError, asyncio.IncompleteReadError):
            pass
        finally:
            if self.session is not None and self.session.connection is self:
                self.broker.leave(self.session, reason if left else None)
            if not self.is_closed:
                self.close()

    def connected(self, reader):
        if reader.text() != "MQTT" or reader.number(1) != 5:
            self.write(packet(packets.CONNACK << 4, bytes([0, NOT_SUPPORTED, 0])))
            return False
        flags, _ = reader.number(1), reader.number(2)
        about, client = read_properties(reader), reader.text()
        will = self.will(reader, flags, client) if flags & 4 else None
        session, present = self.broker.connect(
            client, bool(flags & 2), about.get("session_expiry", 0), will, self)
        self.session = session
        self.write(packet(packets.CONNACK << 4, bytes([present, 0, 0])))
        unanswered, session.unanswered = session.unanswered, {}
        for copy in unanswered.values():
            self.send_copy(copy, True, self.is_dup())
        for copy in self.broker.due(session):
            self.send_copy(copy, True)
        return True

    def is_dup(self):
        """Of what is sent again."""
        return True

    def will(self, reader, flags, client):
        about, topic, payload = read_properties(reader), reader.text(), reader.binary()
        return self.message(topic, payload, flags >> 3 & 3, bool(flags & 32), about, client)

    def message(self, topic, payload, qos, retain, about, client):
        expiry = about.get("expiry")
        deadline = None if expiry is None else self.broker.now() + expiry
        held = tuple((name, about[name]) for name in PASSED_ON if name in about)
        return Message(topic, payload, qos, retain, client, expiry, deadline,
                       about.get("will_delay", 0), properties=held)

    def handle(self, first, reader):
        """Whether the client leaves, and by which reason."""
        kind = first >> 4
        if kind == packets.DISCONNECT:
            return True, self.disconnect(reader)
        if kind == 12:  # PINGREQ
            self.write(packet(packets.PINGRESP << 4))
        elif kind == packets.PUBLISH:
            self.publish(first, reader)
        elif kind in (packets.SUBSCRIBE, packets.UNSUBSCRIBE):
            mid, about = reader.number(2), read_properties(reader)
            if kind == packets.SUBSCRIBE:
                self.subscribe(mid, about, reader)
            else:
                self.unsubscribe(mid, reader)
        elif kind == packets.PUBREL:
            self.received.discard(mid := reader.number(2))
            self.write(packet(packets.PUBCOMP << 4, whole(2)(mid)))
        elif kind in (packets.PUBACK, packets.PUBCOMP):
            self.session.unanswered.pop(reader.number(2), None)
        elif kind == packets.PUBREC:
            self.write(packet(packets.PUBREL << 4 | 2, whole(2)(reader.number(2))))
        return False, None

    def disconnect(self, reader):
        reason = 0 if reader.is_at_end() else reader.number(1)
        about = {} if reader.is_at_end() else read_properties(reader)
        if "session_expiry" in about:
            if self.session.interval == 0 and about["session_expiry"]:
                raise Refused(PROTOCOL_ERROR)
            self.session.interval = about["session_expiry"]
        return reason

    def text(self, reader):
        return reader.text()

    def publish(self, first, reader):
        qos, topic = first >> 1 & 3, self.text(reader)
        mid = reader.number(2) if qos else 0
        about, payload = read_properties(reader), reader.data[reader.at:]
        if not self.broker.is_name(topic) or "id" in about:
            raise Refused(INVALID_TOPIC if "id" not in about else PROTOCOL_ERROR)
        reason = 0
        if mid not in self.received:
            message = self.message(topic, payload, qos, bool(first & 1), about,
                                   self.session.client)
            reason = self.broker.publish(replace(message, dup=bool(first & 8)))
        if qos == 2:
            self.received.add(mid)
        if qos:
            kind = packets.PUBACK if qos == 1 else packets.PUBREC
            self.write(packet(kind << 4, whole(2)(mid), bytes([reason, 0])))

    def subscribe(self, mid, about, reader):
        asked = []
        while not reader.is_at_end():
            asked.append((self.text(reader), reader.number(1)))
        reasons, copies = [], []
        for name, options in asked:
            reason, found = self.subscribe_one(name, options, about.get("id"))
            reasons.append(reason)
            copies += found
        self.write(packet(packets.SUBACK << 4, whole(2)(mid), b"\0", self.reasons(reasons)))
        for copy in copies:
            self.send_copy(copy, True)

    def reasons(self, reasons):
        return bytes(reasons)

    def subscribe_one(self, name, options, identifier):
        broker, (share, wanted) = self.broker, self.broker.split(name)
        no_local = bool(options & 4)
        if not broker.is_no_local_allowed(share, no_local):
            raise Refused(PROTOCOL_ERROR)
        if not broker.is_subscription(name):
            return INVALID_FILTER, []
        one = Subscription(share, wanted, options & 3, no_local, bool(options & 8),
                           options >> 4 & 3, identifier)
        return broker.subscribe(self.session, name, one)

    def unsubscribe(self, mid, reader):
        reasons = []
        while not reader.is_at_end():
            name = self.text(reader)
            reasons.append(self.broker.unsubscribe(self.session, name)
                           if self.broker.is_subscription(name) else INVALID_FILTER)
        self.write(packet(packets.UNSUBACK << 4, whole(2)(mid), b"\0", self.reasons(reasons)))


async def serve(broker, port):
    async def on_connection(reader, writer):
        with contextlib.suppress(ConnectionError):
            await broker.connection(broker, reader, writer).run()
    broker.connection = getattr(broker, "connection", Connection)
    server = await asyncio.start_server(on_connection, "127.0.0.1", port, limit=1 << 21)
    print(server.sockets[0].getsockname()[1], flush=True)
    async with server:
        while True:
            await asyncio.sleep(TICK)
            broker.discard_ended()
