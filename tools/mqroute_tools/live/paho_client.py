"""One client of a live broker, by paho-mqtt 1.6 or 2."""
import math
import socket
import sys
import warnings
from collections.abc import Callable
from typing import Any

from ..common.exit_status import FAILED
from ..common.messages import say

try:
    import paho.mqtt.client as mqtt
    from paho.mqtt.packettypes import PacketTypes
    from paho.mqtt.properties import Properties
    from paho.mqtt.subscribeoptions import SubscribeOptions
except ImportError:
    say("needs the package python3-paho-mqtt")
    sys.exit(FAILED)

from ..script.output import Command
from . import packets
from .broker_diff import Acknowledged, Copy
from .offer import Offer
from .options import BrokerOptions

KEEP_ALIVE = 3600  # seconds
QUICK_ACK: int | None = getattr(socket, "TCP_QUICKACK", None)  # which not every system has
UNSUBACK = packets.UNSUBACK << 4  # its first byte
# Most of what comes are UNSUBACKs of one filter, of which paho makes objects of many fields. These
# are what stands behind their packet identifier, without a property, and the reason.
SHORT_UNSUBACKS: dict[str, dict[bytes, int | None]] = {
    packets.MQTT_5: {b"\0\0": 0, b"\0\x11": 17}, packets.MQTT_3_1_1: {b"": None}}


class Client(mqtt.Client):
    """Looks at each packet before paho does, which passes over some faults and fails in others;
    shows the reasons of PUBACK, PUBREC and DISCONNECT, which not every paho does."""

    def __init__(self, name: str, options: BrokerOptions, **more: Any) -> None:
        versions = getattr(mqtt, "CallbackAPIVersion", None)  # paho 2 asks for it
        with warnings.catch_warnings():
            warnings.simplefilter("ignore", DeprecationWarning)
            super().__init__(
                *([versions.VERSION1] if versions else []), name,
                protocol=mqtt.MQTTv5 if options.protocol == packets.MQTT_5 else mqtt.MQTTv311,
                transport="tcp" if options.websockets is None else "websockets",
                reconnect_on_failure=False, **more)
        self.options = options
        self.reasons: dict[int, int] = {}
        self.awaited: set[tuple[int, int]] = set()  # kinds of packets, with their identifiers
        self.unsubscribed: Callable[[int, int | None], None] = lambda mid, reason: None
        self.is_accepted = False
        self.fault = ""  # what was wrong with a packet of the broker
        self.farewell: int | None = None  # the reason of its DISCONNECT

    def _send_connect(self, keepalive: int) -> Any:
        """paho waits so long for TLS and websockets as the connection may be idle."""
        return super()._send_connect(KEEP_ALIVE)

    def _packet_handle(self) -> Any:
        first, body = self._in_packet["command"], bytes(self._in_packet["packet"])
        if first == UNSUBACK and self.is_short(body):
            return mqtt.MQTT_ERR_SUCCESS
        is_5 = self.options.protocol == packets.MQTT_5
        self.fault = (self.began_otherwise() or packets.fault(first, body, self.options.protocol)
                      or self.out_of_place(first >> 4, body))
        if self.fault:
            return mqtt.MQTT_ERR_PROTOCOL
        if first >> 4 == packets.DISCONNECT:
            self.farewell = body[0] if body else 0
            return mqtt.MQTT_ERR_CONN_LOST
        if first >> 4 == packets.CONNACK and not is_5 and body[1]:
            self.on_connect(self, None, {"session present": 0}, body[1])  # paho would try again
            return mqtt.MQTT_ERR_SUCCESS
        if first >> 4 in (packets.PUBACK, packets.PUBREC) and is_5:
            mid = int.from_bytes(body[:2], "big")
            self.reasons.setdefault(mid, body[2] if len(body) > 2 else 0)
        return self.handled(packets.NAMES[first >> 4])

    def is_short(self, body: bytes) -> bool:
        """Whether an UNSUBACK that is awaited is one that has nothing to look at."""
        awaited = packets.UNSUBACK, int.from_bytes(body[:2], "big")
        short = SHORT_UNSUBACKS[self.options.protocol]
        if not self.is_accepted or awaited not in self.awaited or body[2:] not in short:
            return False
        self.awaited.discard(awaited)
        self.unsubscribed(awaited[1], short[body[2:]])
        return True

    def handled(self, name: str) -> Any:
        """What paho makes of the packet, if it can."""
        try:
            return super()._packet_handle()
        except Exception as error:  # of any kind: they aren't documented
            self.fault = f"{packets.with_article(name)} that paho-mqtt can't read: {error!r}"
            return mqtt.MQTT_ERR_PROTOCOL

    def out_of_place(self, packet: int, body: bytes) -> str:
        """What is wrong with a packet that comes now; empty where nothing is."""
        name = packets.NAMES[packet]
        if packet == packets.CONNACK:
            second, self.is_accepted = self.is_accepted, True
            return "a second CONNACK" if second else ""
        if packet in packets.AWAITED:
            mid = int.from_bytes(body[:2], "big")
            if (packet, mid) not in self.awaited:
                return f"{packets.with_article(name)} for packet {mid}, which doesn't await it"
            self.awaited.discard((packet, mid))
            if packet == packets.PUBREC:
                self.awaited.add((packets.PUBCOMP, mid))
        return ""

    def began_otherwise(self) -> str:
        """What came in place of a CONNACK, as far as its first byte shows."""
        first = self._in_packet["command"]
        if self.is_accepted or first in (0, packets.CONNACK << 4):
            return ""
        return f"what begins with the byte {first:02x} in place of a CONNACK"


class Connection:
    """What it receives goes to `got`, acknowledgements to `answered`."""

    def __init__(self, command: Command, options: BrokerOptions,
                 will: Command | None = None) -> None:
        self.name = command["client"]
        self.options = options
        self.got: list[mqtt.MQTTMessage] = []
        self.answered: dict[int | str, Acknowledged] = {}
        self.offer = Offer()
        clean = command.get("clean", True)
        is_5 = options.protocol == packets.MQTT_5
        client = self.client = Client(
            self.name, options, **({} if is_5 else {"clean_session": clean}))
        user = command.get("user", options.username)
        if user is not None:
            client.username_pw_set(user, options.password)
        if will:
            self.leave_will(will)
        if options.tls:
            self.use_tls()
        if options.websockets is not None:
            client.ws_set_options(path=options.websockets)
        self.listen()
        more: dict[str, Any] = {}
        if is_5:
            more["properties"] = properties = Properties(PacketTypes.CONNECT)
            properties.SessionExpiryInterval = command.get("session_expiry", 0)
            more["clean_start"] = clean
        client.connect(options.host, options.port,
                       keepalive=max(1, math.ceil(options.patience)), **more)
        self.at_once(socket.TCP_NODELAY)
        self.at_once(QUICK_ACK)
        self.write()

    # -- how it is made

    def leave_will(self, will: Command) -> None:
        more = {} if self.options.protocol != packets.MQTT_5 else {
            "properties": message_properties(will, PacketTypes.WILLMESSAGE)}
        self.client.will_set(will["topic"], will["payload"], will.get("qos", 0),
                             will.get("retain", False), **more)

    def use_tls(self) -> None:
        tls = self.options.tls
        assert tls
        self.client.tls_set(tls.ca_file, tls.cert_file, tls.key_file)
        self.client.tls_insecure_set(tls.insecure)

    def listen(self) -> None:
        """The arguments behind `mid` aren't the same in MQTT 3.1.1."""
        client = self.client
        client.on_message = lambda _c, _u, message: self.got.append(message)
        client.on_connect = self.connected
        client.on_disconnect = lambda *_: self.answered.update(closed=Acknowledged())
        client.on_subscribe = lambda _c, _u, mid, reasons, *_: self.answered.update(
            {mid: Acknowledged(number(first(reasons)))})
        client.unsubscribed = self.unsubscribed
        client.on_unsubscribe = lambda _c, _u, mid, *more: self.unsubscribed(
            mid, number(first(more[1])) if more else None)
        client.on_publish = lambda c, _u, mid: self.answered.update(
            {mid: Acknowledged(c.reasons.pop(mid, None))})

    def unsubscribed(self, mid: int, reason: int | None) -> None:
        self.answered[mid] = Acknowledged(reason)

    def connected(self, _client: Any, _data: Any, flags: Any, reason: Any,
                  properties: Any = None) -> None:
        self.offer = Offer(properties, self.options.protocol)
        present = flags["session present"] if isinstance(flags, dict) else flags.session_present
        self.answered["connect"] = Acknowledged(number(reason), bool(present))

    # -- how it ends

    def why_ended(self) -> tuple[str, str]:
        """Of a connection that ended: in a word, and in words."""
        if self.client.fault:
            return "no MQTT", f"the broker sent to {self.name}: {self.client.fault}"
        why = f"the broker closed the connection of {self.name}"
        if self.client.farewell is not None:
            why += f", with a DISCONNECT of reason {packets.in_words(self.client.farewell)}"
        return "closed", why

    def drop(self) -> None:
        """Ends the connection without a DISCONNECT."""
        self.client.socket().shutdown(socket.SHUT_RDWR)

    # -- reading and writing

    def read(self) -> None:
        status = self.client.loop_read()
        if status == mqtt.MQTT_ERR_PROTOCOL and not self.client.fault:
            self.client.fault = "a packet whose length has over 4 bytes"
        otherwise = self.client.fault or self.client.began_otherwise()
        if otherwise:
            self.client.fault = otherwise
            self.answered["closed"] = Acknowledged()
        self.at_once(QUICK_ACK)
        self.write()

    def has_answered(self, key: int | str) -> bool:
        """Whether the acknowledgement has come, or none can come any more."""
        return key in self.answered or "closed" in self.answered

    def has_more(self) -> bool:
        """Whether TLS holds what the socket shows no more."""
        held = getattr(self.client.socket(), "pending", None)
        return bool(held and held())

    def at_once(self, option: int | None) -> None:
        """Neither side is to hold small packets back: that would cost 40 ms a line. QUICK_ACK holds
        for what is read next."""
        one = self.client.socket()
        one = getattr(one, "_socket", one)  # that of websockets
        if one and option is not None:
            one.setsockopt(socket.IPPROTO_TCP, option, 1)

    def write(self) -> None:
        """What a connection that is gone still had to write is never written."""
        while self.client.socket() and self.client.want_write():
            self.client.loop_write()

    # -- commands

    def publish(self, command: Command) -> int:
        more = {} if self.options.protocol != packets.MQTT_5 else {
            "properties": message_properties(command, PacketTypes.PUBLISH)}
        qos = command.get("qos", 0)
        sent = self.client.publish(command["topic"], command.get("payload", ""), qos,
                                   command.get("retain", False), **more)
        if qos:
            self.client.awaited.add((packets.PUBREC if qos == 2 else packets.PUBACK, sent.mid))
        self.write()
        return int(sent.mid)

    def subscribe(self, command: Command) -> int:
        if self.options.protocol == packets.MQTT_5:
            properties = Properties(PacketTypes.SUBSCRIBE)
            if "id" in command:
                properties.SubscriptionIdentifier = command["id"]
            options = SubscribeOptions(command.get("qos", 0), command.get("no_local", False),
                                       command.get("rap", False), command.get("handling", 0))
            _, mid = self.client.subscribe(
                command["filter"], options=options, properties=properties)
        else:
            _, mid = self.client.subscribe(command["filter"], command.get("qos", 0))
        self.client.awaited.add((packets.SUBACK, mid))
        self.write()
        return int(mid)

    def unsubscribe(self, name: str) -> int:
        _, mid = self.client.unsubscribe(name)
        self.client.awaited.add((packets.UNSUBACK, mid))
        self.write()
        return int(mid)

    def copies(self) -> list[Copy]:
        """What has come since the last line, in its order."""
        found = [copy_of(self.name, message) for message in self.got]
        self.got.clear()
        return found


def copy_of(name: str, message: Any) -> Copy:
    properties = getattr(message, "properties", None)
    return Copy(name, message.topic, message.qos, bool(message.retain),
                message.payload.decode("utf-8", "replace"),
                list(getattr(properties, "SubscriptionIdentifier", None) or []),
                getattr(properties, "MessageExpiryInterval", None))


def message_properties(command: Command, packet: int) -> Properties:
    properties = Properties(packet)
    if "expiry" in command:
        properties.MessageExpiryInterval = command["expiry"]
    return properties


def first(reasons: Any) -> Any:
    return reasons[0] if isinstance(reasons, (list, tuple)) else reasons


def number(reason: Any) -> int:
    """A reason code as paho has it, or as MQTT 3.1.1 has it."""
    return int(getattr(reason, "value", reason))
