"""A mosquitto that is asked about lists."""
import contextlib
import signal
import socket
import subprocess
import time

from access.lists import Client, allowing
from access.mqtt import (NOT_AUTHORIZED, PING, PINGRESP, PUBACK, Connection, acknowledged, copies,
                         publish_packet, subscribe_packet)
from access.seen import PATIENCE, SEEDER, Fault, Seen, filters_of, seeded_of

TRIES = 5  # starts of a mosquitto


class Broker:
    def __init__(self, program, folder, access_list):
        self.list, self.log = folder / "list", (folder / "log").open("w+b")
        self.list.write_bytes(access_list.encode())
        self.port = free_port()
        settings = folder / "settings"
        settings.write_text(
            f"listener {self.port} 127.0.0.1\nallow_anonymous true\nacl_file {self.list}\n"
            "user root\npersistence false\nlog_dest stderr\nlog_type error\nlog_type information\n"
            "connection_messages false\nmax_inflight_messages 0\ncheck_retain_source false\n"
            # With 0, no limit, mosquitto 2.0 ends a connection whose publish it denies.
            "max_queued_messages 1000000\nset_tcp_nodelay true\n", encoding="utf-8")
        self.at = 0  # how much of the log is read
        self.running = subprocess.Popen(
            [program, "-c", settings], stdin=subprocess.DEVNULL, stdout=self.log, stderr=self.log)

    def said(self):
        """What is new in its log."""
        self.log.seek(self.at)
        text = self.log.read()
        self.at += len(text)
        return text.decode("utf-8", "replace")

    def why_not_up(self):
        """Empty once it listens, which its log shows: a look at the port could take the port."""
        text, end = "", time.monotonic() + PATIENCE
        while not text.endswith(" running\n"):
            if self.running.poll() is not None or time.monotonic() > end:
                return text + self.said() or "it says nothing"
            time.sleep(0.01)
            text += self.said()
        return ""

    def reload(self, access_list, connection):
        """Why it refuses the list, if it does. It looks at signals once something comes: a ping.
        The one behind the line in its log is answered when it has read the list."""
        self.list.write_bytes(access_list.encode())
        self.said()
        self.running.send_signal(signal.SIGHUP)
        text, end = "", time.monotonic() + PATIENCE
        while "Reloading config" not in text:
            if time.monotonic() > end:
                raise Fault("mosquitto doesn't read the list again")
            connection.ping()
            text += self.said()
        connection.ping()
        text += self.said()
        return "; ".join(one for one in text.splitlines() if "Error" in one)

    def end(self):
        self.running.terminate()
        self.running.wait(PATIENCE)
        self.log.close()


def free_port():
    with contextlib.closing(socket.socket()) as probe:
        probe.bind(("127.0.0.1", 0))
        return probe.getsockname()[1]


class Asked:
    """A mosquitto that is asked about a group's lists."""

    def __init__(self, broker, group):
        self.broker, self.group = broker, group
        self.topics = {topic: place for place, topic in enumerate(group.topics)}
        self.subscribe = subscribe_packet(filters_of(group)) + PING
        self.publishes = [
            b"".join(publish_packet(topic, str(writer), place + 1)
                     for place, topic in enumerate(group.topics))
            for writer in range(len(group.clients))]
        self.connections = []
        self.seeder = Connection(broker.port, Client(SEEDER, None))
        self.seed()

    def seed(self):
        for topic in seeded_of(self.group):
            self.seeder.send(publish_packet(topic, "kept", 1, retain=True))
            if (1, NOT_AUTHORIZED) in acknowledged(self.seeder.until(PUBACK)):
                raise Fault(f"mosquitto refuses {topic} under a list that allows all")

    def seen(self, text):
        seen = Seen(refused=self.broker.reload(text, self.seeder))
        if seen.refused:
            return seen
        if not self.connections:
            self.connections = [
                Connection(self.broker.port, client) for client in self.group.clients]
        for reader, connection in enumerate(self.connections):
            connection.send(self.subscribe)
            self.take(seen, reader, connection.until(PINGRESP))
        for writer, connection in enumerate(self.connections):
            connection.send(self.publishes[writer])
            self.take(seen, writer, connection.until(PUBACK, len(self.topics)))
        for reader, connection in enumerate(self.connections):
            self.take(seen, reader, connection.ping())
        return seen

    def take(self, seen, client, packets):
        for topic, payload, is_retained in copies(packets):
            found = client, self.topics[topic]
            if is_retained:
                seen.read.add(found)
            else:
                seen.reached.add((*found, int(payload)))
        for number, reason in acknowledged(packets):
            if reason != NOT_AUTHORIZED:
                seen.write.add((client, number - 1))


def started(program, folder, access_list):
    """Another process may have taken the port: then with another one."""
    for _ in range(TRIES):
        broker = Broker(program, folder, access_list)
        why = broker.why_not_up()
        if not why:
            return broker
        broker.end()
    raise Fault(f"mosquitto doesn't start: {why}")


@contextlib.contextmanager
def asked(program, group, folder):
    broker = started(program, folder, allowing(group.topics))
    try:
        yield Asked(broker, group)
    finally:
        broker.end()
