"""A client of MQTT 5."""
import socket

from access.seen import PATIENCE, Fault

CONNACK, PUBLISH, PUBACK, PINGRESP = 2, 3, 4, 13
PING = b"\xc0\0"
NO_SUBSCRIBERS, NOT_AUTHORIZED = 16, 135


def text_of(words):
    return len(words.encode()).to_bytes(2, "big") + words.encode()


def packet(first, body):
    size, low = divmod(len(body), 128)
    length = bytes([low])
    while size:
        length = length[:-1] + bytes([length[-1] | 128])
        size, low = divmod(size, 128)
        length += bytes([low])
    return bytes([first]) + length + body


def publish_packet(topic, payload, number, retain=False):
    body = text_of(topic) + number.to_bytes(2, "big") + b"\0" + payload.encode()
    return packet(0x32 | retain, body)


def subscribe_packet(filters):
    return packet(0x82, b"\0\1\0" + b"".join(text_of(one) + b"\0" for one in filters))


class Connection:
    def __init__(self, port, client):
        self.socket = socket.create_connection(("127.0.0.1", port), PATIENCE)
        self.socket.setsockopt(socket.IPPROTO_TCP, socket.TCP_NODELAY, 1)
        self.held = b""
        has_user = client.user is not None
        body = text_of("MQTT") + bytes([5, 2 | has_user << 7, 0, 0, 0]) + text_of(client.name)
        self.send(packet(0x10, body + (text_of(client.user) if has_user else b"")))
        _, said = self.until(CONNACK)[-1]
        if said[1]:
            raise Fault(f"mosquitto refuses {client}, reason {said[1]}")

    def send(self, data):
        self.socket.sendall(data)

    def until(self, kind, count=1):
        """The packets up to the one that is the last of so many of this kind."""
        found = []
        while count:
            first, body = self.next()
            found.append((first, body))
            count -= first >> 4 == kind
        return found

    def next(self):
        while True:
            size, shift = 0, 0
            for place in range(1, min(len(self.held), 5)):
                size |= (self.held[place] & 127) << shift
                shift += 7
                if self.held[place] < 128:
                    end = place + 1 + size
                    if len(self.held) < end:
                        break
                    first, body = self.held[0], self.held[place + 1:end]
                    self.held = self.held[end:]
                    return first, body
            self.receive()

    def receive(self):
        more = self.socket.recv(65536)
        if not more:
            raise Fault("mosquitto closes a connection")
        self.held += more

    def ping(self):
        """What came before the answer to a ping."""
        self.send(PING)
        return self.until(PINGRESP)


def copies(packets):
    """Topic, payload and RETAIN of messages; they are of QoS 0 and have no properties."""
    for first, body in packets:
        if first >> 4 == PUBLISH:
            end = 2 + int.from_bytes(body[:2], "big")
            yield body[2:end].decode(), body[end + 1:].decode(), bool(first & 1)


def acknowledged(packets):
    """The numbers of PUBACKs, and their reasons."""
    for first, body in packets:
        if first >> 4 == PUBACK:
            reason = body[2] if len(body) > 2 else 0
            if reason not in (0, NO_SUBSCRIBERS, NOT_AUTHORIZED):
                raise Fault(f"mosquitto answers a publish with reason {reason}")
            yield int.from_bytes(body[:2], "big"), reason


# -- a mosquitto
