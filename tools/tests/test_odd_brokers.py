"""Brokers that say what no broker should: one line, status 1 or 2, and no traceback."""
import contextlib
import os
import socket
import subprocess
import tempfile
import threading
import time
import unittest
from collections.abc import Callable
from pathlib import Path

from mosquitto import PAHO, wants_paho
from worked import HERE, PROGRAM, wants_program

CONNACK = bytes.fromhex("20 03 00 00 00")
CONNECT, SUBSCRIBE, UNSUBSCRIBE = 1, 8, 10
SCRIPT = '{"do":"connect","client":"a"}\n{"do":"subscribe","client":"a","filter":"x"}\n'
OUTPUT = '{"line":1,"reason":0}\n{"line":2,"reason":0}\n'
Answer = Callable[[int, bytes], bytes | None]  # to a kind of packet; None closes the connection


def acknowledged(kind: int, mid: bytes) -> bytes | None:
    """What a broker says that knows nothing of messages."""
    if kind == CONNECT:
        return CONNACK
    if kind == SUBSCRIBE:
        return b"\x90\x04" + mid + b"\0\0"
    return b"\xb0\x04" + mid + b"\0\x11" if kind == UNSUBSCRIBE else b""


class OddBroker:
    """Answers each packet by a function; a packet is of fewer than 128 bytes here."""

    def __init__(self, answer: Answer) -> None:
        self.answer = answer
        self.listening = socket.create_server(("127.0.0.1", 0))
        self.port = self.listening.getsockname()[1]
        threading.Thread(target=self.accept, daemon=True).start()

    def accept(self) -> None:
        while True:
            try:
                connection, _ = self.listening.accept()
            except OSError:
                return
            threading.Thread(target=self.serve, args=(connection,), daemon=True).start()

    def serve(self, connection: socket.socket) -> None:
        with (contextlib.suppress(ConnectionError), connection,
              connection.makefile("rb") as stream):
            while True:
                head = stream.read(2)
                if len(head) < 2:
                    return
                body = stream.read(head[1])
                said = self.answer(head[0] >> 4, body[:2])
                if said is None:
                    return
                connection.sendall(said)


def at(wanted: int, said: bytes | None) -> Answer:
    """To this kind of packet it says this."""
    return lambda kind, mid: said if kind == wanted else acknowledged(kind, mid)


ODD = {  # what it says, replay's status, and a part of the line
    "no CONNACK": (at(CONNECT, b""), 2, "no CONNACK within 1 seconds"),
    "closes": (at(CONNECT, None), 2, "closed the connection"),
    "refuses": (at(CONNECT, bytes.fromhex("20 03 00 87 00")), 2, "reason 135 (not authorized)"),
    "MQTT 3.1.1": (at(CONNECT, bytes.fromhex("20 02 00 01")), 2, "(--protocol 3.1.1)"),
    "HTTP": (at(CONNECT, b"HTTP/1.1 400 Bad Request\r\n\r\n"), 2, "begins with the byte 48"),
    "no SUBACK": (at(SUBSCRIBE, b""), 1, "no SUBACK within 1 seconds"),
    "closes later": (at(SUBSCRIBE, None), 1, "closed the connection of a;"),
    "DISCONNECT": (at(SUBSCRIBE, bytes.fromhex("e0 01 93")), 1,
                   "with a DISCONNECT of reason 147 (receive maximum exceeded)"),
    "not UTF-8": (at(SUBSCRIBE, bytes.fromhex("30 05 00 02 ff fe 00")), 1, "not UTF-8"),
    "length": (at(SUBSCRIBE, bytes.fromhex("30 ff ff ff ff 01")), 1, "over 4 bytes"),
    "two CONNACKs": (at(SUBSCRIBE, CONNACK), 1, "a second CONNACK"),
    "another packet's": (at(SUBSCRIBE, bytes.fromhex("90 04 ff ff 00 00")), 1,
                         "a SUBACK for packet 65535, which doesn't await it")}


@wants_paho
class Odd(unittest.TestCase):
    def setUp(self) -> None:
        folder = tempfile.TemporaryDirectory()
        self.addCleanup(folder.cleanup)
        self.folder = folder.name
        Path(self.folder, "script").write_text(SCRIPT)
        Path(self.folder, "output").write_text(OUTPUT)

    def run_tool(self, tool: str, answer: Answer, *words: str) -> tuple[int, str]:
        broker = OddBroker(answer)
        self.addCleanup(broker.listening.close)
        done = subprocess.run(
            [PAHO, HERE / f"{tool}.py", "--port", str(broker.port), "--patience", "1", *words],
            cwd=self.folder, capture_output=True, text=True, timeout=60,
            env=os.environ | {"MQROUTE": str(PROGRAM)})
        self.assertNotIn("Traceback", done.stderr)
        return done.returncode, done.stdout + done.stderr

    def test_replay(self):
        self.assertEqual(self.run_tool("replay", acknowledged, "script", "output"), (0, ""))
        for name, (answer, status, said) in ODD.items():
            with self.subTest(name):
                found, text = self.run_tool("replay", answer, "script", "output")
                self.assertEqual(found, status, text)
                self.assertIn(said, text.splitlines()[-1])

    @wants_program
    def test_search(self):
        """The search looks at what the broker retains, and so meets the fault at once."""
        for name, (answer, _, said) in ODD.items():
            with self.subTest(name):
                status, text = self.run_tool("search", answer, "--minutes", "0.1")
                self.assertEqual((status, len(text.splitlines())), (2, 1), text)
                self.assertIn(said.replace(" of a;", " of mqroute-cleaner"), text)

    @wants_program
    def test_time_limit(self):
        """One that stops to answer at its fourth packet on a connection."""
        seen: dict[int, int] = {}

        def stops(kind: int, mid: bytes) -> bytes | None:
            thread = threading.get_ident()
            seen[thread] = 0 if kind == CONNECT else seen.get(thread, 0) + 1
            return acknowledged(kind, mid) if seen[thread] < 9 else b""
        began = time.monotonic()
        status, text = self.run_tool("search", stops, "--minutes", "0.1", "--patience", "2")
        self.assertLess(time.monotonic() - began, 6 + 2 + 20)  # a busy machine starts it late
        self.assertEqual(status, 1, text)
        self.assertIn("no answer; seed 1, script ", text)

    @wants_program
    def test_a_fault_later_is_a_find(self):
        """A packet identifier of 0 in an acknowledgement of a PUBLISH."""
        def odd(kind: int, mid: bytes) -> bytes | None:
            return bytes.fromhex("40 02 00 00") if kind == 3 else acknowledged(kind, mid)
        status, text = self.run_tool("search", odd, "--minutes", "0.1", "--without", "qos2")
        self.assertEqual(status, 1, text)
        self.assertIn("a PUBACK with the packet identifier 0", text)


if __name__ == "__main__":
    unittest.main()
