"""From the lines of a mosquitto log to the commands of a script."""
from collections import Counter
from collections.abc import Callable, Iterable, Iterator
from itertools import chain, islice
from typing import BinaryIO

from ..script.file_kinds import OF_MOSQUITTO
from ..script.output import Command
from . import mosquitto_log as log
from .broker_state import publish
from .clients import Arrival, Session
from .subscribing import Subscribing
from .time_stamps import LOOKED_AT, Stamps

ADDRESSES = 1_000  # new connections that are remembered until they say who they are


class Converter(Subscribing):
    """Reads lines one by one."""

    def __init__(self, session_expiry: int = 0, form: str | None = None) -> None:
        super().__init__(session_expiry)
        self.stamps = Stamps(form)
        self.latest: log.Publish | None = None  # the last that a client sent
        # that connected over TCP: the broker has no such line of a websocket
        self.addresses: dict[str, str] = {}
        self.ports: Counter[int] = Counter()  # of the listeners, by connections
        self.sys_topics: set[str] = set()  # below $SYS/, that clients publish
        # who sent DISCONNECT and has a will, and where the broker showed the end
        self.parting: tuple[str, int] | None = None
        self.is_log = False  # whether a line of mosquitto's was read
        self.silent = False  # the broker shows neither who connects nor whose connection ends
        self.turn = 0  # how many lines were read but grants, and those of other programs
        self.frequent = self.readers()
        self.rare = ("", 0, self.known_rarer)

    # -- reading

    def read(self, line: str | bytes) -> None:
        """Bytes are a line that is not UTF-8."""
        self.place += 1
        if self.commands:
            self.commands = []
        if isinstance(line, bytes):
            self.lost(line.decode("utf-8", "replace"), len(line))
            return
        time = None  # that of the line before
        stamp, _, text = line.partition(": ")
        if stamp != self.stamps.alone:
            time, text = self.stamps.split(line)
        if self.parting is not None:
            self.end_after_disconnect(text)
        if self.ended is not None and not text.startswith(log.COPY):
            self.ended = None
        if time is not None and time != self.time:
            if self.time is not None and time < self.time:
                self.notes.add("times went back: the script's clock stands still there",
                               f"line {self.place}: {line}")
            self.time = time
        if not self.is_log:
            self.is_log = OF_MOSQUITTO.match(text) is not None
        if not text or (self.asked is not None and self.granted(text)):
            return
        self.turn += 1
        start, end, work_in = self.frequent.get(text[:log.DISTINCT], self.rare)
        if not (work_in(text[end:]) if text.startswith(start) else self.known_rarer(text)):
            self.lost(line, len(line.encode("utf-8")))

    def finish(self) -> None:
        """Notes what still waits for a line that doesn't come."""
        if self.arrival:
            self.notes.add("connections are without their CONNACK line, and not in the script: set "
                           "log_type all in mosquitto.conf",
                           f"line {self.arrival.place}: {self.arrival.text}")
            self.arrival = None

    def lost(self, line: str, size: int) -> None:
        what = "lines cut short by the broker" if size >= log.CUT_AT else "lines not known"
        hint = "" if self.stamps.found() else " (if they begin with a time, give --time-format)"
        self.notes.add(
            f"{what}: nothing of them is in the script{hint}", f"line {self.place}: {line}")

    def doubt(self, text: str) -> None:
        self.notes.add(
            "lines can be read in two ways; the first was taken", f"line {self.place}: {text}")

    def readers(self) -> dict[str, tuple[str, int, Callable[[str], bool]]]:
        """What works in the rest of a line of a frequent kind, by how such a line begins, with all
        of its beginning and its length. It answers whether the rest is one of that kind."""
        starts: dict[str, Callable[[str], bool]] = {
            log.COPY: self.copy, log.RECEIVED: self.routed, log.DENIED: self.denied_publish,
            log.RELEASED: self.released, log.ARRIVED: self.reached,
            log.CONNACK_SENT: self.connack, log.SUBACK_SENT: self.subscribed,
            log.UNSUBACK_SENT: self.unsubscribed}
        starts |= dict.fromkeys((log.RECEPTION, log.WILL_LESS), self.passed_over)
        starts |= dict.fromkeys(log.ACKNOWLEDGEMENTS_SENT, self.acknowledging)
        starts |= dict.fromkeys(log.ACKNOWLEDGEMENTS, self.acknowledged)
        starts[log.RELEASE_SENT] = self.releasing
        return {start[:log.DISTINCT]: (start, len(start), work_in)
                for start, work_in in starts.items()}

    def passed_over(self, rest: str) -> bool:
        """Of such a line a script has nothing."""
        return True

    def acknowledging(self, rest: str) -> bool:
        """The broker sends PUBACK, PUBREC or PUBCOMP."""
        return True

    def releasing(self, rest: str) -> bool:
        """The broker sends PUBREL."""
        return True

    def acknowledged(self, rest: str) -> bool:
        """A client sends PUBACK or PUBCOMP."""
        return True

    def copy(self, rest: str) -> bool:
        sent = log.read_publish(rest, self.connected)
        if sent is None:
            return False
        self.copied(sent)
        return True

    def routed(self, rest: str) -> bool:
        return self.publish(rest, routed=True)

    def denied_publish(self, rest: str) -> bool:
        return self.publish(rest, routed=False)

    def known_rarer(self, text: str) -> bool:
        if text.startswith("Sending "):
            return True
        if text.startswith("Received "):
            return self.received(text[9:])
        if text.startswith("\t"):
            return self.listed(text[1:])
        if text.startswith("New "):
            return self.arriving(text)
        if text.startswith("Will message specified ") and self.arrival:
            self.arrival.will_head = log.WILL.match(text)
            return self.arrival.will_head is not None
        return self.ending(text) or self.noted(text) or text.startswith(log.PASSED_OVER)

    def reached(self, rest: str) -> bool:
        """`New connection from ADDRESS on port N.`"""
        address, _, behind = rest.partition(" ")
        self.addresses[address] = behind
        if len(self.addresses) > ADDRESSES:
            del self.addresses[next(iter(self.addresses))]
        return True

    def arriving(self, text: str) -> bool:
        """And then `New client connected from ADDRESS as ID (..).`"""
        if not text.startswith(("New client connected from ", "New bridge connected from ")):
            return False
        address, found, name = text[26:].partition(" as ")
        self.finish()
        behind = self.addresses.pop(address, None)
        self.arrival = Arrival(self.place, name, behind is None, text.startswith("New bridge"),
                               port_of(behind or ""))
        return bool(found)

    def noted(self, text: str) -> bool:
        """Lines that change what the broker does, and that no command stands for; and
        those of its own bridges."""
        for start, what in log.NOTED:
            if text.startswith(start):
                self.notes.add(what, f"line {self.place}: {text}")
                return True
        bridge = log.LOCAL_SUBSCRIBE.match(text)
        if bridge:
            self.bridge_subscribes(bridge[1], bridge[2])
        return bridge is not None or log.BRIDGE_SENDS.match(text) is not None

    def subscribed(self, client: str) -> bool:
        """The broker sends SUBACK."""
        self.grant(None)
        self.packet = None
        return True

    def unsubscribed(self, client: str) -> bool:
        """The broker sends UNSUBACK."""
        self.grant(None)
        self.packet = None
        return True

    def copied(self, sent: log.Publish) -> bool:
        """The broker sent a copy. Whether it may be one that the script explains."""
        client, topic = sent.client, sent.topic
        if self.ended is not None and self.of_own_will(sent):
            return False
        if client not in self.connected:
            self.was_before(client)
        if not topic.startswith("$SYS/"):
            return True
        if topic not in self.sys_topics:
            self.notes.add("copies of topics under $SYS/, which the broker publishes itself, are "
                           "not in the script", f"line {self.place}: {client} {topic}")
        return False

    def of_own_will(self, sent: log.Publish) -> bool:
        """Whether the copy stands right behind the end of its client's connection: so the broker
        logs those of the client's own will."""
        return sent.client == self.ended and sent.client not in self.connected

    def received(self, text: str) -> bool:
        kind, _, client = text.partition(" from ")
        if kind in ("SUBSCRIBE", "UNSUBSCRIBE"):
            self.session(client)
            self.packet = (kind.lower(), client, self.place)
        elif kind == "DISCONNECT":
            if client in self.connected:
                self.disconnecting(client)
        else:
            return (kind in ("PINGREQ", "PUBACK", "PUBREC", "PUBCOMP", "AUTH", "SUBACK", "UNSUBACK")
                    or text.startswith("CONNACK on connection "))
        return True

    def released(self, text: str) -> bool:
        """The sender of a publish of QoS 2 releases it: so it is routed."""
        found = log.RELEASE.match(text)
        if found is None:
            return False
        session = self.connected.get(found[1])
        if session:
            self.release(session, int(found[2]))
        return True

    def release(self, session: Session, packet: int) -> None:
        command = session.unreleased.pop(packet, None)
        if command:
            self.emit(self.place, command)

    def disconnecting(self, client: str) -> None:
        """Over websockets the connection ends here for all others."""
        session = self.connected[client]
        session.leaves = True
        if self.silent:
            self.end(client, willed=True)
        elif session.websocket:
            self.leave(client)

    def publish(self, text: str, routed: bool) -> bool:
        found = log.read_publish(text, self.connected)
        if found is None:
            return False
        if found.readings > 1:
            self.doubt(text)
        self.take(found, routed)
        return True

    def take(self, found: log.Publish, routed: bool) -> None:
        """A client published; the broker routes it, or denies it."""
        self.latest = found
        client, _, qos, retain, packet, topic, size, _ = found
        command = publish(client, topic, size, qos, bool(retain))
        session = self.connected.get(client) or self.session(client)
        if topic.startswith("$SYS/"):
            self.sys_topics.add(topic)
        if routed and qos == 2:
            if session.unreleased.get(packet, command) != command:
                self.forget(client, packet)
            session.renamed.discard(packet)
            session.unreleased[packet] = command
        else:
            self.emit(self.place, command, routed)

    def forget(self, client: str, packet: int) -> None:
        """The client uses a packet identifier again: the broker drops what it
        has of QoS 2 under it."""
        session = self.connected.get(client)
        dropped = session.unreleased.pop(packet, None) if session else None
        if dropped:
            self.never_released(dropped)

    # -- coming and going

    def connack(self, text: str) -> bool:
        found = log.CONNACK.match(text)
        arrival, self.arrival = self.arrival, None
        if found is None or arrival is None:
            return (found is not None
                    and (found[3] != "0" or self.unannounced(found[1], found[2] == "1")))
        client = found[1]
        about = (log.CONNECTED.match(arrival.text[len(client):])
                 if arrival.text.startswith(client + " (") else None)
        if about is None:
            return False
        protocol, clean, user = int(about[1]), about[2] == "1", about[3]
        if arrival.port:
            self.ports[arrival.port] += 1
        self.connect(arrival, client, user, clean, protocol, found[2] == "1")
        return True

    def unannounced(self, client: str, present: bool) -> bool:
        """A connection of which the CONNACK line alone stands in the log."""
        self.silent = True
        self.notes.add("connections have no 'New client connected' line (the broker's "
                       "connection_messages is false): user names, wills, and the ends of "
                       "connections without DISCONNECT are not in the script",
                       f"line {self.place}: {client}")
        self.connect(Arrival(self.place, client), client, None, not present, 5, present)
        return True

    def ending(self, text: str) -> bool:
        taken = log.TAKEN_OVER.match(text)
        if taken and taken[1] in self.connected:
            self.taken_over(taken[1])
            return True
        if text.startswith("mosquitto version ") and text.endswith(" starting"):
            self.start()
            return True
        reused = log.REUSED.match(text)
        if reused:
            client, packet, last = reused[2], int(reused[1]), self.latest
            if last is None or (last.client, last.packet, last.qos) != (client, packet, 2):
                self.forget(client, packet)  # else that one is new
            return True
        expired = log.EXPIRED.match(text)
        if expired:
            self.expire(expired[1])
            return True
        named = log.ended_clients(text, self.connected, self.closing)
        if len(named) > 1:
            self.doubt(text)
        if named:
            self.closed(named[0])
        return bool(named) or taken is not None

    def closed(self, client: str) -> None:
        session, departed = self.connected.get(client), client in self.departed
        willed = bool(session and session.leaves and session.will)
        waits = departed or (willed and client not in self.closing)
        if waits:
            self.end_after_disconnect("")
            self.parting = (client, self.place)
        if departed or not waits:
            super().closed(client)

    def end_after_disconnect(self, text: str) -> None:
        """The end of a connection after DISCONNECT, of which `text` is the line that follows.

        MQTT 5 clients can ask for their will (reason 4). No line has the reason, but then the
        will's copies come at once.
        """
        if self.parting is None:
            return
        (client, place), self.parting = self.parting, None
        departed = self.departed.pop(client, None)
        session = departed or self.connected[client]
        sent = (log.read_publish(text[len(log.COPY):], self.connected)
                if text.startswith(log.COPY) else None)
        will = session.will or {}
        copy = publish(client, sent.topic, sent.size, 0, False) if sent else {}
        if sent and all(copy.get(name) == will.get(name) for name in ("topic", "payload")):
            session.leaves = False
        here, self.place = self.place, place
        if departed is None:
            self.end(client, willed=True)
        elif not departed.leaves:
            self.departed_will(client, departed)
        self.place = here

    def end(self, client: str, willed: bool) -> None:
        super().end(client, willed)
        if self.packet and self.packet[1] == client:
            self.packet = self.asked = None


def port_of(text: str) -> int:
    """Of `on port 1883.`; 0 where there is none."""
    digits = text.removeprefix("on port ").removesuffix(".")
    return int(digits) if log.is_number(digits) else 0


def placed_commands(converter: Converter,
                    streams: Iterable[BinaryIO]) -> Iterator[tuple[int, Command]]:
    """The commands, each with the number of the log line that it came from."""
    read = converter.read
    yield from converter.commands  # of before the log
    for stream in streams:
        with stream:
            lines = log.texts(stream)
            first = list(islice(lines, LOOKED_AT))
            converter.stamps.decide(list(map(log.readable, first)))
            for line in chain(first, lines):
                read(line)
                if converter.commands:
                    yield from converter.commands
    converter.commands = []
    converter.end_after_disconnect("")
    yield from converter.commands
    converter.finish()
