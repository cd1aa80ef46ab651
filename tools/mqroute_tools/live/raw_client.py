"""A client that writes its own packets, and so also those that paho-mqtt refuses to send."""
import contextlib
import socket
import ssl
import time
from collections.abc import Callable
from typing import Any

from . import packets
from .broker_diff import Copy
from .options import BrokerOptions, Tls
from .packet_writer import PINGREQ, Login, Writer
from .received import Received, read
from .run_ends import RunEnds

KEEP_ALIVE = 3600  # seconds
PIECE = 1 << 16
LONGEST_LENGTH = 4  # bytes of a packet's length


def secured(plain: socket.socket, host: str, tls: Tls) -> socket.socket:
    context = ssl.create_default_context(cafile=tls.ca_file)
    if tls.insecure:
        context.check_hostname = False
    if tls.cert_file:
        context.load_cert_chain(tls.cert_file, tls.key_file)
    return context.wrap_socket(plain, server_hostname=host)


class RawClient:
    """Acknowledges what it is sent; `got` has all packets, in their order."""

    def __init__(self, options: BrokerOptions, name: str) -> None:
        self.options, self.name = options, name
        self.write = Writer(options.protocol)
        self.got: list[Received] = []
        self.seen = 0  # of these, how many were asked about
        self.is_ended = False
        self.fault = ""  # what was wrong with a packet
        self.buffer = b""
        self.mid = 0
        self.acknowledges = True
        self.filters = 1  # of the last SUBSCRIBE or UNSUBSCRIBE
        plain = socket.create_connection((options.host, options.port), options.patience)
        plain.setsockopt(socket.IPPROTO_TCP, socket.TCP_NODELAY, 1)
        self.socket = secured(plain, options.host, options.tls) if options.tls else plain

    def login(self, user: str | None) -> Login:
        name = self.options.username if user is None else user
        return Login(name, self.options.password if name is not None else None)

    def connect(self, user: str | None = None, **more: Any) -> Received:
        """The CONNACK. Raises RunEnds where the broker takes no connection."""
        self.send(self.write.connect(self.name, KEEP_ALIVE, self.login(user), **more))
        said = self.answer(packets.CONNACK)
        if said is None or said.reasons[0]:
            why = packets.in_words(said.reasons[0]) if said else "it was closed"
            raise RunEnds("refused", "the broker refused the connection of "
                          f"{self.name}, reason {why}")
        return said

    def next_mid(self) -> int:
        self.mid += 1
        return self.mid

    def send(self, data: bytes) -> None:
        """A connection that takes nothing any more is read to its end."""
        try:
            self.socket.sendall(data)
        except TimeoutError as fault:
            raise RunEnds("no answer", f"it reads nothing within {self.options.patience:g} "
                          "seconds") from fault
        except OSError:
            self.pump(lambda: False, self.options.patience)
            self.is_ended = True

    # -- reading

    def read(self) -> None:
        try:
            piece = self.socket.recv(PIECE)
        except TimeoutError:
            return
        except OSError:
            piece = b""
        self.is_ended = not piece
        self.buffer += piece
        while self.take_packet():
            pass

    def take_packet(self) -> bool:
        """Whether there was a whole one."""
        reader = packets.Reader(self.buffer)
        try:
            first, size = reader.number(1), reader.variable()
            body = reader.take(size)
        except packets.Malformed:
            if len(self.buffer) > LONGEST_LENGTH and reader.at > LONGEST_LENGTH:
                self.end_by("a packet whose length has over 4 bytes")
            return False
        self.buffer = self.buffer[reader.at:]
        fault = packets.fault(first, body, self.options.protocol, self.filters)
        if fault:
            self.end_by(fault)
            return False
        self.take(read(first, body, self.options.protocol))
        return True

    def end_by(self, fault: str) -> None:
        self.fault, self.is_ended, self.buffer = fault, True, b""

    def take(self, packet: Received) -> None:
        self.got.append(packet)
        answer = {packets.PUBREC: packets.PUBREL, packets.PUBREL: packets.PUBCOMP,
                  packets.PUBLISH: (0, packets.PUBACK, packets.PUBREC)[packet.qos]}
        kind = answer.get(packet.kind, 0)
        failed = any(reason >= packets.FAILURE for reason in packet.reasons)
        if kind and not failed and self.acknowledges:
            self.send(self.write.acknowledge(kind, packet.mid))

    def pump(self, done: Callable[[], bool], seconds: float) -> bool:
        """Reads until `done`, the end of the connection, or so many seconds: whether it is done."""
        end = time.monotonic() + seconds
        while not done() and not self.has_left():
            left = end - time.monotonic()
            if left <= 0:
                return False
            self.socket.settimeout(left)
            self.read()
        return done()

    def answer(self, *kinds: int) -> Received | None:
        """The next packet of these kinds; None where the connection ends before it. Raises RunEnds
        where neither comes."""
        begin = len(self.got)

        def found() -> list[Received]:
            return [packet for packet in self.got[begin:] if packet.kind in kinds]
        if not self.pump(lambda: bool(found()), self.options.patience) and not self.has_left():
            wanted = " or ".join(packets.NAMES[kind] for kind in kinds)
            raise RunEnds("no answer", f"no {wanted} within {self.options.patience:g} seconds")
        if self.fault:
            raise RunEnds("no MQTT", f"the broker sent to {self.name}: {self.fault}")
        return next(iter(found()), None)

    def fence(self) -> None:
        """Until all has come that was sent before."""
        if not self.has_left():
            self.send(PINGREQ)
            self.answer(packets.PINGRESP)

    def new_publishes(self) -> list[Received]:
        """What has come since this was asked before."""
        new, self.seen = self.got[self.seen:], len(self.got)
        return [packet for packet in new if packet.kind == packets.PUBLISH]

    def copies(self) -> list[Copy]:
        return [packet.copy(self.name) for packet in self.new_publishes()]

    def has_left(self) -> bool:
        """Whether the broker has ended the connection, or has said that it does."""
        return self.is_ended or self.farewell() is not None

    def farewell(self) -> int | None:
        """The reason of the broker's DISCONNECT."""
        return next((packet.reasons[0] for packet in self.got
                     if packet.kind == packets.DISCONNECT), None)

    def close(self) -> None:
        if not self.is_ended:
            with contextlib.suppress(OSError):
                self.socket.sendall(self.write.disconnect())
        self.socket.close()

    def drop(self) -> None:
        """Ends the connection without a DISCONNECT."""
        with contextlib.suppress(OSError):
            self.socket.shutdown(socket.SHUT_RDWR)
        self.socket.close()
