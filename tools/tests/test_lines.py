"""The lines of a log that were passed over once, or taken for others: wills, websockets,
bridges, prefixes, packed files."""
import gzip
import io
import subprocess
import sys
import tempfile
import unittest
from pathlib import Path

from test_log_to_script import arrival, convert, published, subscribing
from worked import HERE
from mqroute_tools.log.conversion import Converter, placed_commands

TOOL = HERE / "log_to_script.py"
TAKEN = "Client a already connected, closing old connection.\n"
CLOSED = "Client a closed its connection.\n"
WILL = "Will message specified (3 bytes) (r1, q2).\n\tlast/words"
SENT = {"do": "publish", "client": "a", "topic": "last/words", "payload": "3 bytes", "qos": 2,
        "retain": True}
CONNECT, LEAVE = {"do": "connect", "client": "a"}, {"do": "disconnect", "client": "a"}
KEPT = CONNECT | {"clean": False, "session_expiry": 4294967295}
ALL = {"do": "subscribe", "client": "a", "filter": "last/#"}
TCP = "New connection from 127.0.0.1:50000 on port 1883.\n"


def only(text: str, **options) -> list[dict]:
    return convert(text, **options)[0]


def notes(text: str) -> list[str]:
    return list(convert(text)[1])


class Wills(unittest.TestCase):
    def test_none_where_the_session_is_resumed(self):
        first = arrival("a", "p2, c0, k60", will=WILL)
        again = arrival("a", "p2, c0, k60", present=1)
        self.assertEqual(convert(TCP + first + TAKEN + TCP + again), ([KEPT, KEPT], {}))
        self.assertEqual(only(TCP + first + TAKEN + TCP + arrival("a")), [KEPT, SENT, CONNECT])

    def test_the_client_that_died_gets_no_copy(self):
        text = TCP + arrival("a", will=WILL) + subscribing("a", ("last/#", 0))
        self.assertEqual(only(text + CLOSED), [CONNECT, ALL, CONNECT, SENT, LEAVE])
        self.assertEqual(
            only(text + TAKEN + TCP + arrival("a")), [CONNECT, ALL, CONNECT, SENT, CONNECT])
        shared = ALL | {"filter": "$share/g/last/+"}
        self.assertEqual(only(TCP + arrival("a", "p5, c1, k60, u'me'", will=WILL)
                              + subscribing("a", ("$share/g/last/+", 0)) + CLOSED),
                         [CONNECT | {"user": "me"}, shared, CONNECT | {"user": "me"}, SENT, LEAVE])

    def test_no_new_session_without_need(self):
        text = TCP + arrival("a", will=WILL) + subscribing("a", ("last/#", 0), ("first/#", 0))
        gone = "Received UNSUBSCRIBE from a\n\tlast/#\na last/#\nSending UNSUBACK to a\n"
        self.assertEqual(only(text + gone + CLOSED)[-2:], [SENT, LEAVE])
        self.assertNotEqual(only(text + gone + CLOSED)[-3], CONNECT)


class Websockets(unittest.TestCase):
    """Their `New connection from` line is missing, and the older connection's end is logged
    after the new one's CONNACK."""

    def test_the_older_one_ended(self):
        publish = {"do": "publish", "client": "a", "topic": "x", "payload": "2 bytes"}
        text = (arrival("a", will=WILL) + TAKEN + arrival("a", will=WILL) + CLOSED
                + published("a", "x"))
        self.assertEqual(convert(text), ([CONNECT, SENT, CONNECT, publish], {}))
        self.assertEqual(only(text + CLOSED), [CONNECT, SENT, CONNECT, publish, SENT, LEAVE])
        twice = TAKEN + arrival("a")
        self.assertEqual(only(arrival("a") + twice * 2 + CLOSED * 2 + published("a", "x") + CLOSED),
                         [CONNECT] * 3 + [publish, LEAVE])

    def test_over_tcp_the_newer_one_ended(self):
        text = TCP + arrival("a") + TAKEN + TCP + arrival("a") + CLOSED
        self.assertEqual(only(text), [CONNECT, CONNECT, LEAVE])

    def test_a_new_start_of_the_broker(self):
        start = "mosquitto version 2.0.11 starting\n"
        text = arrival("a") + TAKEN + arrival("a") + start + arrival("a") + CLOSED
        self.assertEqual(only(text), [CONNECT, CONNECT, LEAVE, CONNECT, LEAVE])


class Bridges(unittest.TestCase):
    def test_a_bridge_that_connects(self):
        text = (arrival("a").replace("New client", "New bridge")
                + subscribing("a", ("last/#", 0), ("$share/g/x", 1)))
        self.assertEqual(convert(text), ([
            CONNECT, ALL | {"no_local": True, "rap": True},
            {"do": "subscribe", "client": "a", "filter": "$share/g/x", "qos": 1, "rap": True}], {}))

    def test_a_bridge_of_the_broker_itself(self):
        text = ("Bridge a doing local SUBSCRIBE on topic last/#\n"
                "Connecting bridge (step 1) up (127.0.0.1:1883)\nBridge a.b sending CONNECT\n"
                "Received CONNACK on connection a.\n"
                "Bridge a sending SUBSCRIBE (Mid: 2, Topic: x, QoS: 1, Options: 0x00)\n"
                "Bridge a sending UNSUBSCRIBE (Mid: 3, Topic: up/#)\nReceived SUBACK from a\n"
                "Received UNSUBACK from a\n")
        local = ALL | {"qos": 2, "no_local": True, "rap": True}
        self.assertEqual(convert(text), ([KEPT, local], {}))
        self.assertEqual(only(text + CLOSED + text), [KEPT, local, LEAVE, KEPT, local])


class Told(unittest.TestCase):
    def one(self, text: str, *words: str) -> None:
        shown = notes(TCP + arrival("a") + text)
        self.assertEqual(len(shown), 1, shown)
        for word in words:
            self.assertIn(word, shown[0])

    def test_what_concerns_the_script(self):
        self.one("Reloading config.\n", "the access list may have changed here")
        self.one(
            "Dropped too large PUBLISH from a (d0, q0, r0, m0, 'x', ... (9 bytes))\n", "too large")
        self.one("Outgoing messages are being dropped for client a.\n", "drop copies")

    def test_topics_of_the_broker(self):
        sys_copy = "Sending PUBLISH to {} (d0, q0, r1, m0, '$SYS/broker/uptime', ... (9 bytes))\n"
        self.one(sys_copy.format("a") * 2, "copies of topics under $SYS/, which the broker "
                 "publishes itself, are not in the script")
        self.assertEqual(
            convert(TCP + arrival("a") + sys_copy.format("a") * 52)[1].popitem()[1], 52)
        published_by_a = (
            "Received PUBLISH from a (d0, q0, r1, m0, '$SYS/broker/uptime', ... (9 bytes))\n")
        self.assertEqual(notes(TCP + arrival("a") + published_by_a + sys_copy.format("a")), [])
        self.assertEqual(len(notes(sys_copy.format("a"))), 2)

    def test_what_does_not(self):
        for line in (
                "OpenSSL Error[0]: error:14094416:SSL routines:ssl3_read_bytes:sslv3 alert "
                "certificate unknown",
                "Warning: File /etc/acl has world readable permissions. Future versions will "
                "refuse to load this file.\nTo fix this, use `chmod 0700 /etc/acl`.",
                "Note: It is recommended to replace `message_size_limit` with `max_packet_size`."):
            self.assertEqual(notes(TCP + arrival("a") + line + "\n"), [])

    def test_without_connection_messages(self):
        quiet = "Sending CONNACK to a (0, 0)\n"
        found, shown = convert(quiet + published("a", "x") + "Received DISCONNECT from a\n"
                               + quiet.replace("(0", "(1"))
        self.assertEqual([c["do"] for c in found], ["connect", "publish", "disconnect", "connect"])
        self.assertIn("connection_messages is false", next(iter(shown)))
        self.assertFalse([t for t in shown if "before the log began" in t])


class Beginnings(unittest.TestCase):
    """Cut first lines, prefixes, and packed files."""
    PLAIN = TCP + arrival("a") + published("a", "x")
    WANTED = [CONNECT, {"do": "publish", "client": "a", "topic": "x", "payload": "2 bytes"}]

    def stamped(self, stamp: str) -> str:
        return "".join(stamp + line + "\n" for line in self.PLAIN.splitlines())

    def test_a_first_line_that_is_cut(self):
        for stamp in ("1795358535: ", "2026-11-22T23:59:58: "):
            found, shown = convert("535: 'x', ... (2 bytes))\n" + self.stamped(stamp))
            self.assertEqual((found, sum(shown.values())), (self.WANTED, 1))
        self.assertEqual(
            only("mosquitto[1]: nothing\n" + self.stamped("Nov 24 18:40:00 host mosquitto[123]: ")),
            self.WANTED)

    def test_a_file_that_goes_on_with_two_lines(self):
        """What the first file has holds for a short one after it."""
        found = Converter()
        first = self.stamped("1795358535: ")
        second = "58535: cut\n1795358536: " + published("a", "x")
        commands = [c for _, c in placed_commands(
            found, [io.BytesIO(first.encode()), io.BytesIO(second.encode())])]
        self.assertEqual(commands, self.WANTED + [{"do": "advance", "seconds": 1}, self.WANTED[1]])

    def test_prefixes(self):
        for prefix in (
                "Nov 24 18:40:00 host mosquitto[123]: ",
                "Nov  4 18:40:00.123456 host mosquitto[123]: ", "Nov 24 18:40:00 host mosquitto: ",
                "2026-11-24T18:40:00.123456+01:00 host mosquitto[123]: ",
                "2026-11-24T18:40:00+0100 host mosquitto[123]: ",
                "Tue 2026-11-24 18:40:00 UTC host mosquitto[123]: ",
                "1795358535.123456 host mosquitto[123]: "):
            for own in ("", "1795358535: ", "2026-11-22T23:59:58: "):
                self.assertEqual(
                    convert(self.stamped(prefix + own)), (self.WANTED, {}), prefix + own)
        text = self.stamped("Nov 24 18:40:00 host mosquitto[123]: ").replace(
            "18:40:00 host mosquitto[123]: Received", "18:41:30 host mosquitto[123]: Received")
        self.assertEqual(only(text), [CONNECT, {"do": "advance", "seconds": 90}, self.WANTED[1]])

    def test_the_end_of_a_year(self):
        text = self.stamped("Dec 31 23:59:58 host mosquitto[123]: ").replace(
            "Dec 31 23:59:58 host mosquitto[123]: Received",
            "Jan  1 00:00:01 host mosquitto[123]: Received")
        self.assertEqual(only(text), [CONNECT, {"do": "advance", "seconds": 3}, self.WANTED[1]])

    def test_lines_of_other_programs(self):
        prefix = "Nov 24 18:40:00 host "
        text = (f"{prefix}systemd[1]: Started Mosquitto.\n"
                + self.stamped(prefix + "mosquitto[123]: ") + f"{prefix}kernel: x\n")
        self.assertEqual(convert(text), (self.WANTED, {}))

    def test_tabs_as_rsyslog_writes_them(self):
        prefix = "Nov 24 18:40:00 host mosquitto[123]: 1795358535: "
        text = "".join(prefix + line + "\n"
                       for line in (TCP + arrival("a") + subscribing("a", ("last/#", 0))).replace(
                           "\t", "#011").splitlines())
        self.assertEqual(convert(text), ([CONNECT, ALL], {}))

    def test_packed_files(self):
        with tempfile.TemporaryDirectory() as folder:
            packed = gzip.compress(self.PLAIN.encode())
            Path(folder, "log.1.gz").write_bytes(packed)
            Path(folder, "log").write_text(published("a", "y"))
            wanted = '{"do":"connect","client":"a"}\n' + "".join(
                '{"do":"publish","client":"a","topic":"%s","payload":"2 bytes"}\n' % t
                for t in "xy")

            def run(*words: str, **more: bytes) -> subprocess.CompletedProcess:
                return subprocess.run([sys.executable, TOOL, *words], cwd=folder,
                                      capture_output=True, **more)
            done = run("log.1.gz", "log")
            self.assertEqual((done.returncode, done.stdout.decode()), (0, wanted))
            self.assertEqual(
                run(input=packed).stdout.decode(), "".join(wanted.splitlines(True)[:2]))
            Path(folder, "log.1.gz").write_bytes(packed[:-9])
            done = run("log.1.gz")
            self.assertEqual((done.returncode, len(done.stderr.splitlines())), (2, 1))


if __name__ == "__main__":
    unittest.main()
