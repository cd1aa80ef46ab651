"""The converter, on each kind of line that mosquitto writes, and on ones made to mislead it."""
import io
import json
import unittest

import worked  # noqa: F401  it knows where the tools are
from mqroute_tools.log.conversion import Converter, placed_commands
from mqroute_tools.log.log_to_script import text_of


def convert(text: str | bytes, **options) -> tuple[list[dict], dict[str, int]]:
    """The commands and the counts of notes."""
    converter = Converter(**options)
    raw = text if isinstance(text, bytes) else text.encode("utf-8")
    commands = [command for _, command in placed_commands(converter, [io.BytesIO(raw)])]
    return [json.loads(text_of(c)) for c in commands], converter.notes.counts


def arrival(client: str, about: str = "p5, c1, k60", present: int = 0,
            will: str = "No will message specified.") -> str:
    return (f"New client connected from 127.0.0.1:50000 as {client} ({about}).\n{will}\n"
            f"Sending CONNACK to {client} ({present}, 0)\n")


def subscribing(client: str, *filters: tuple[str, int]) -> str:
    asked = "".join(f"\t{f} (QoS {q})\n{client} {q} {f}\n" for f, q in filters)
    return f"Received SUBSCRIBE from {client}\n{asked}Sending SUBACK to {client}\n"


def published(client: str, topic: str, flags: str = "d0, q0, r0, m0", size: int = 2,
              word: str = "Received") -> str:
    return f"{word} PUBLISH from {client} ({flags}, '{topic}', ... ({size} bytes))\n"


class Case(unittest.TestCase):
    def gives(self, text: str | bytes, commands: list[dict], notes: int = 0, **options) -> None:
        """`commands` without the connects of the clients `a`, which every test needs."""
        found, counts = convert(text, **options)
        self.assertEqual([c for c in found if c != {"do": "connect", "client": "a"}], commands)
        self.assertEqual(sum(counts.values()), notes, counts)


class Coming(Case):
    def test_connect(self):
        self.gives(arrival("b"), [{"do": "connect", "client": "b"}])
        self.gives(
            arrival("b", "p5, c1, k60, u'ops'"), [{"do": "connect", "client": "b", "user": "ops"}])

    def test_without_clean_start(self):
        self.gives(arrival("b", "p5, c0, k60"), [{"do": "connect", "client": "b", "clean": False}])
        self.gives(arrival("b", "p5, c0, k60"),
                   [{"do": "connect", "client": "b", "clean": False, "session_expiry": 9}],
                   session_expiry=9)

    def test_mqtt_3_keeps_the_session(self):
        for protocol in ("p1", "p2"):
            self.gives(
                arrival("b", f"{protocol}, c0, k60"),
                [{"do": "connect", "client": "b", "clean": False, "session_expiry": 4294967295}])

    def test_resumed_session_that_the_script_lacks(self):
        self.gives(arrival("b", "p5, c0, k60", present=1),
                   [{"do": "connect", "client": "b", "clean": False}], notes=1)

    def test_resumed_session_that_the_script_has(self):
        connect = {"do": "connect", "client": "b", "clean": False, "session_expiry": 4294967295}
        text = (arrival("b", "p2, c0, k60") + "Client b disconnected.\n"
                + arrival("b", "p2, c0, k60", present=1))
        self.gives(text, [connect, {"do": "disconnect", "client": "b"}, connect])

    def test_session_that_the_broker_lost(self):
        connect = {"do": "connect", "client": "b", "clean": False, "session_expiry": 4294967295}
        text = (arrival("b", "p2, c0, k60") + "mosquitto version 2.0.11 starting\n"
                + arrival("b", "p2, c0, k60"))
        self.gives(text, [connect, {"do": "disconnect", "client": "b"},
                          {"do": "connect", "client": "b", "session_expiry": 4294967295}])

    def test_session_that_expires(self):
        connect = {"do": "connect", "client": "b", "clean": False, "session_expiry": 9}
        leave = {"do": "disconnect", "client": "b"}
        text = (arrival("b", "p5, c0, k60")
                + "Client b disconnected.\nExpiring client b due to timeout.\n")
        self.gives(text * 2, [connect, leave, {"do": "connect", "client": "b"}, leave] * 2,
                   session_expiry=9)
        self.gives("Expiring client b due to timeout.\n", [])

    def test_a_log_without_the_debug_lines(self):
        text = ("New client connected from 1.2.3.4:5 as b (p5, c1, k60).\n"
                "New client connected from 1.2.3.4:6 as c (p5, c1, k60).\n")
        self.gives(text, [], notes=2)

    def test_refused_connections(self):
        self.gives(
            "Sending CONNACK to b (0, 5)\nClient <unknown> disconnected, not authorised.\n", [])

    def test_bridge(self):
        self.gives(
            arrival("b").replace("New client", "New bridge"), [{"do": "connect", "client": "b"}])


class Leaving(Case):
    def test_every_kind(self):
        for end in ("Client a disconnected.", "Client a closed its connection.",
                    "Client a has exceeded timeout, disconnecting.",
                    "Client a disconnected due to protocol error.",
                    "Client a disconnected due to out of memory.",
                    "Client a disconnected: Connection reset by peer.",
                    "Client a disconnected, not authorised.",
                    "Client a been disconnected by administrative action.",
                    "Bad socket read/write on client a: Broken pipe",
                    "Socket error on client a, disconnecting."):
            with self.subTest(end):
                self.gives(arrival("a") + end + "\n", [{"do": "disconnect", "client": "a"}])

    def test_shown_twice(self):
        self.gives(arrival("a")
                   + "Bad socket read/write on client a: x\nClient a closed its connection.\n",
                   [{"do": "disconnect", "client": "a"}])

    def test_taken_over(self):
        found, _ = convert(
            arrival("a") + "Client a already connected, closing old connection.\n" + arrival("a"))
        self.assertEqual(found, [{"do": "connect", "client": "a"}] * 2)

    def test_new_start_of_the_broker(self):
        self.gives(arrival("a") + "mosquitto version 2.0.11 starting\n",
                   [{"do": "disconnect", "client": "a"}])

    WILL = "Will message specified (3 bytes) (r1, q2).\n\tlast/words"
    SENT = {"do": "publish", "client": "a", "topic": "last/words", "payload": "3 bytes", "qos": 2,
            "retain": True}

    def test_will(self):
        self.gives(arrival("a", will=self.WILL) + "Client a closed its connection.\n",
                   [self.SENT, {"do": "disconnect", "client": "a"}])

    def test_no_will_after_disconnect(self):
        self.gives(
            arrival("a", will=self.WILL) + "Received DISCONNECT from a\nClient a disconnected.\n",
            [{"do": "disconnect", "client": "a"}])

    def test_will_that_disconnect_asks_for(self):
        """Its copies come at once. The line has no reason; others' copies after it, or later
        ones, aren't of the will."""
        ends = "Received DISCONNECT from a\nClient a disconnected.\n"
        copy = published("b", "last/words", size=3, word="Sending").replace("from", "to")
        gone = {"do": "disconnect", "client": "a"}
        tcp = "New connection from 127.0.0.1:50000 on port 1883.\n"
        before = arrival("b") + tcp + arrival("a", will=self.WILL)
        for after, wanted in (
                (copy, [self.SENT, gone]), (copy + "Client b disconnected.\n",
                                            [self.SENT, gone, {"do": "disconnect", "client": "b"}]),
                (copy.replace("(3", "(4"), [gone]), (copy.replace("words", "word"), [gone]),
                ("", [gone]),
                ("Received PINGREQ from b\n" + copy, [gone]), (arrival("a") + copy, [gone])):
            self.gives(before + ends + after, [{"do": "connect", "client": "b"}, *wanted])
        self.gives(before + subscribing("a", ("#", 0)) + ends + copy,
                   [{"do": "connect", "client": "b"},
                    {"do": "subscribe", "client": "a", "filter": "#"}, self.SENT, gone])

    def test_will_of_a_session_taken_over(self):
        text = (arrival("a", will=self.WILL)
                + "Client a already connected, closing old connection.\n" + arrival("a"))
        self.gives(text, [self.SENT])


class Subscribing(Case):
    def test_subscribe(self):
        self.gives(arrival("a") + subscribing("a", ("x/+", 0), ("$share/g/y/#", 2)),
                   [{"do": "subscribe", "client": "a", "filter": "x/+"},
                    {"do": "subscribe", "client": "a", "filter": "$share/g/y/#", "qos": 2}])

    def test_the_granted_qos_counts(self):
        self.gives(
            arrival("a") + "Received SUBSCRIBE from a\n\tx (QoS 2)\na 1 x\nSending SUBACK to a\n",
            [{"do": "subscribe", "client": "a", "filter": "x", "qos": 1}])

    def test_without_the_line_of_the_grant(self):
        self.gives(arrival("a")
                   + "Received SUBSCRIBE from a\n\tx (QoS 2)\n\ty (QoS 1)\nSending SUBACK to a\n",
                   [{"do": "subscribe", "client": "a", "filter": "x", "qos": 2},
                    {"do": "subscribe", "client": "a", "filter": "y", "qos": 1}])

    def test_refused(self):
        for reason in (128, 135):
            self.gives(arrival("a") + f"Received SUBSCRIBE from a\n\tx (QoS 1)\na {reason} x\n"
                       "Sending SUBACK to a\n", [], notes=1)

    def test_faulty_filter(self):
        self.gives(arrival("a") + "Received SUBSCRIBE from a\n"
                   "Invalid subscription string from 127.0.0.1, disconnecting.\n"
                   "Client a disconnected due to malformed packet.\n",
                   [{"do": "disconnect", "client": "a"}])

    def test_unsubscribe(self):
        self.gives(arrival("a")
                   + "Received UNSUBSCRIBE from a\n\tx/+\na x/+\n\ty\na y\nSending UNSUBACK to a\n",
                   [{"do": "unsubscribe", "client": "a", "filter": "x/+"},
                    {"do": "unsubscribe", "client": "a", "filter": "y"}])


class Publishing(Case):
    def test_publish(self):
        self.gives(arrival("a") + published("a", "x", "d0, q1, r1, m7", 5),
                   [{"do": "publish", "client": "a", "topic": "x", "payload": "5 bytes", "qos": 1,
                     "retain": True}])

    def test_empty_payload(self):
        self.gives(arrival("a") + published("a", "x", size=0),
                   [{"do": "publish", "client": "a", "topic": "x"}])

    def test_qos_2_is_routed_when_released(self):
        text = (arrival("a") + published("a", "x", "d0, q2, r0, m1") + published("a", "y")
                + published("a", "x", "d1, q2, r0, m1")
                + "Received PUBREL from a (Mid: 1)\nReceived PUBREL from a (Mid: 1)\n")
        self.gives(
            text, [{"do": "publish", "client": "a", "topic": "y", "payload": "2 bytes"},
                   {"do": "publish", "client": "a", "topic": "x", "payload": "2 bytes", "qos": 2}])

    def test_qos_2_never_released(self):
        self.gives(arrival("a") + published("a", "x", "d0, q2, r0, m1") + "Client a disconnected.\n"
                   + "Received PUBREL from a (Mid: 1)\n",
                   [{"do": "disconnect", "client": "a"}], notes=1)
        self.gives(arrival("a") + published("a", "x", "d0, q2, r0, m1") + arrival("a"), [], notes=1)

    def test_a_packet_identifier_that_is_used_again(self):
        """The broker drops what it has of QoS 2 under it: the PUBREL releases nothing."""
        for qos in (1, 2):
            text = (arrival("a") + published("a", "x", "d0, q2, r0, m4")
                    + published("a", "y", f"d0, q{qos}, r0, m4") + "Reused message ID 4 from a "
                    "detected. Clearing from storage.\nReceived PUBREL from a (Mid: 4)\n")
            self.gives(
                text,
                [{"do": "publish", "client": "a", "topic": "y", "payload": "2 bytes", "qos": qos}],
                notes=1)

    def test_denied(self):
        self.gives(arrival("a") + published("a", "x", "d0, q2, r0, m1", word="Denied"),
                   [{"do": "publish", "client": "a", "topic": "x", "payload": "2 bytes", "qos": 2}])

    def test_client_from_before_the_log(self):
        self.gives(
            published("b", "x") + published("b", "x"), [{"do": "connect", "client": "b"}]
            + [{"do": "publish", "client": "b", "topic": "x", "payload": "2 bytes"}] * 2, notes=1)

    def test_receiver_from_before_the_log(self):
        self.gives("Sending PUBLISH to b (d0, q0, r0, m0, 'x', ... (2 bytes))\n", [], notes=1)


class Times(Case):
    def timed(self, *stamps: str, **options) -> list[int]:
        text = "".join(stamp + line + "\n" for stamp, line in zip(
            stamps, arrival("a").splitlines() + [published("a", "x").strip()]))
        found, notes = convert(text, **options)
        self.assertEqual(notes, {})
        self.assertEqual([c["do"] for c in found if c["do"] != "advance"], ["connect", "publish"])
        return [c["seconds"] for c in found if c["do"] == "advance"]

    def test_forms(self):
        self.assertEqual(self.timed(*["1795358535: "] * 3, "1795358540: "), [5])
        self.assertEqual(self.timed(*["2026-11-22T23:59:58: "] * 3, "2026-11-23T00:00:01: "), [3])
        self.assertEqual(
            self.timed(*["2026-11-22T23:59:58+0100: "] * 3, "2026-11-22T23:00:00+0000: "), [2])
        self.assertEqual(self.timed(*["2026-11-22 23:59:58: "] * 3, "2026-11-23 00:00:01: "), [3])
        self.assertEqual(self.timed("", "", "", ""), [])
        self.assertEqual(self.timed(*["22.11.26 at: 10h05: "] * 3, "22.11.26 at: 10h07: ",
                                    form="%d.%m.%y at: %Hh%M"), [120])
        self.assertEqual(self.timed(*["1795358535: "] * 4), [])

    def test_another_form_is_asked_for(self):
        _, notes = convert("22.11.26 10h05: mosquitto version 2.0.11 starting\n")
        self.assertIn("--time-format", next(iter(notes)))

    def test_time_goes_back(self):
        stamped = [f"{1795358535 + t}: " for t in (0, 0, 0)]
        text = "".join(s + line + "\n" for s, line in zip(stamped, arrival("a").splitlines()))
        self.gives(
            text + "1795358530: " + published("a", "x") + "1795358536: " + published("a", "x"),
            [{"do": "publish", "client": "a", "topic": "x", "payload": "2 bytes"},
             {"do": "advance", "seconds": 1},
             {"do": "publish", "client": "a", "topic": "x", "payload": "2 bytes"}], notes=1)


class Hostile(Case):
    NAMES = ["a b", "o'neil \"b\"", "名, (p5, c1, k60)", "x (d0, q0, r0, m0, 'y'", "x disconnected.",
             "x disconnected: y", "x from y", "x (p5, c1, k60, u'z')",
             "Sending PUBLISH to q (d0, q0, r0, m0, 'x', ... (2 bytes))", "x, q1', ... (9 bytes))",
             "x already connected, closing old connection.",
             "New client connected from 1.2.3.4:5 as q (p5, c1, k60).", "x 1", "1795358535:",
             "x (QoS 1)", "x (Mid: 3)", "\\n{}", "<unknown>", "x\u2028y"]

    def test_client_ids(self):
        for name in self.NAMES:
            with self.subTest(name):
                text = (arrival("b") + arrival(name, f"p5, c1, k60, u'{name}'")
                        + subscribing(name, (name, 1)) + published(name, name, "d0, q2, r0, m3")
                        + f"Received PUBREL from {name} (Mid: 3)\n" + "Received UNSUBSCRIBE from "
                        f"{name}\n\t{name}\n{name} {name}\nSending UNSUBACK to {name}\n"
                        + f"Received DISCONNECT from {name}\nClient {name} disconnected.\n")
                self.gives(text, [{"do": "connect", "client": "b"},
                                  {"do": "connect", "client": name, "user": name},
                                  {"do": "subscribe", "client": name, "filter": name, "qos": 1},
                                  {"do": "publish", "client": name, "topic": name,
                                   "payload": "2 bytes", "qos": 2},
                                  {"do": "unsubscribe", "client": name, "filter": name},
                                  {"do": "disconnect", "client": name}])

    def test_an_id_that_begins_like_another(self):
        longer = "a (d0, q0, r0, m0, 'x"
        self.gives(arrival(longer) + published(longer, "y"),
                   [{"do": "connect", "client": longer},
                    {"do": "publish", "client": longer, "topic": "y", "payload": "2 bytes"}])
        # nothing in the log shows which it was
        self.gives(arrival("a") + arrival(longer) + published(longer, "y"),
                   [{"do": "connect", "client": longer},
                    {"do": "publish", "client": "a", "topic": "x (d0, q0, r0, m0, 'y",
                     "payload": "2 bytes"}], notes=1)
        self.gives(
            arrival("b") + arrival("b disconnected: x")
            + "Client b disconnected: x disconnected.\n",
            [{"do": "connect", "client": "b"}, {"do": "connect", "client": "b disconnected: x"},
             {"do": "disconnect", "client": "b disconnected: x"}], notes=1)

    def test_lines_not_known(self):
        self.gives("what is this\n\tlonely\nReceived PUBLISH from a\nReceived FOO from b\n"
                   "Will message specified (1 bytes) (r0, q0).\n\n", [], notes=5)

    def test_cut_short(self):
        self.gives(arrival("a") + published("a", "x" * 2000)[:999] + "\n", [], notes=1)
        self.gives(arrival("a").encode() + published("a", "é" * 2000).encode()[:998] + b"\n"
                   + published("a", "x").encode(),
                   [{"do": "publish", "client": "a", "topic": "x", "payload": "2 bytes"}], notes=1)

    def test_a_line_without_end(self):
        self.gives(b"x" * 1_000_000
                   + b" Received PUBLISH from a (d0, q0, r0, m0, 'x', ... (2 bytes))", [], notes=1)

    def test_windows_ends(self):
        self.gives(arrival("b").replace("\n", "\r\n"), [{"do": "connect", "client": "b"}])


class Memory(Case):
    def test_nothing_is_kept_of_those_who_left(self):
        converter = Converter()
        for i in range(1000):
            text = (arrival(f"c{i}") + published(f"c{i}", f"t/{i}", "d0, q2, r0, m1")
                    + f"Client c{i} disconnected.\n")
            for _ in placed_commands(converter, [io.BytesIO(text.encode())]):
                pass
        self.assertEqual(
            (len(converter.connected), len(converter.away), len(converter.commands)), (0, 0, 0))


if __name__ == "__main__":
    unittest.main()
