"""Cases of packets: their lines, what of them differs, and the client that runs them."""
import tempfile
import unittest
from pathlib import Path

from test_odd_brokers import SUBSCRIBE, OddBroker, acknowledged
from test_refused_lines import PINGREQ, PINGRESP, answering
from worked import TOP
from mqroute_tools.common.exit_status import Fault
from mqroute_tools.live.cases import read_sections
from mqroute_tools.live.options import BrokerOptions
from mqroute_tools.live.packet_run import PacketRun
from mqroute_tools.live.packet_steps import as_commands, marked, step_fault

A = {"do": "connect", "client": "a"}
FILTERS = {"do": "subscribe", "client": "a", "filters": [{"filter": "x"}, {"filter": "y"}],
           "answered": [0, 0]}
CONNACK_PRESENT = bytes.fromhex("20 03 01 00 00")


class Lines(unittest.TestCase):
    def test_faults(self):
        for step, said in ((A, ""), ([], "no step"), ({"do": "fly"}, "no step"),
                           (A | {"wings": 2}, "connect has no field wings"),
                           ({"do": "drop"}, "drop needs a client"),
                           ({"do": "wait", "client": "a"}, "wait has no client"),
                           (A | {"gets": {"b": [{"tail": 1}]}}, "a copy has no tail"),
                           (A | {"gets": {"b": [[], [{"tail": 1}]]}}, "a copy has no tail")):
            self.assertTrue(said in step_fault(step) if said else not step_fault(step), step)

    def test_read(self):
        with tempfile.TemporaryDirectory() as folder:
            Path(folder, "one.packets").write_text('{"do":"drop","client":"a"}\n{"do":1}\n')
            with self.assertRaisesRegex(Fault, "one.packets:2: no step"):
                list(read_sections(Path(folder)))

    def test_names(self):
        step = {"do": "subscribe", "client": "a", "filters": ["x/+", {"filter": "$share/g/y"}],
                "gets": {"b": [{"topic": "x", "payload": "p"}]}}
        self.assertEqual(marked(step, "M"), {
            "do": "subscribe", "client": "aM",
            "filters": ["xM/+", {"filter": "$share/gM/yM"}],
            "gets": {"bM": [[{"topic": "xM", "payload": "p"}]]}})
        self.assertEqual([one["filter"] for one in as_commands([step])], ["x/+", "$share/g/y"])


class OnABroker(unittest.TestCase):
    def differences(self, answer, steps: list) -> list[str]:
        broker = OddBroker(answer)
        self.addCleanup(broker.listening.close)
        run = PacketRun(BrokerOptions("127.0.0.1", broker.port, patience=1))
        try:
            return [text.strip() for one in run.differences(steps) for text in one.texts]
        finally:
            run.end()

    def test_reasons(self):
        for reasons, found in ((b"\0\0", []), (b"\0\1", ["answered", "wanted:  [0, 0]",
                                                         "broker:  [0, 1]"])):
            def suback(mid: bytes, reasons: bytes = reasons) -> bytes:
                return b"\x90\5" + mid + b"\0" + reasons
            self.assertEqual(self.differences(answering({SUBSCRIBE: suback}), [A, FILTERS]), found)

    def test_one_reason_is_too_few(self):
        def suback(mid: bytes) -> bytes:
            return b"\x90\4" + mid + b"\0\0"
        [text] = self.differences(answering({SUBSCRIBE: suback}), [A, FILTERS])
        self.assertIn("a SUBACK that is cut short", text)

    def test_session_present(self):
        self.assertEqual(self.differences(answering({}), [A | {"present": True}]),
                         ["session present", "wanted:  True", "broker:  False"])
        self.assertEqual(self.differences(answering({1: lambda mid: CONNACK_PRESENT}),
                                          [A | {"present": True}]), [])

    def test_a_connection_that_is_taken_over(self):
        """This broker leaves it as it is."""
        steps = [A, A | {"ends": {"a": 142}}]
        self.assertEqual(self.differences(answering({}), steps), [
            "the connection of a ends", "wanted:  by a DISCONNECT of reason 142",
            "broker:  not at all"])

    def test_what_comes_and_should_not(self):
        def ping(mid: bytes) -> bytes:
            return b"\x30\5\0\1x\0p" + PINGRESP
        self.assertEqual(self.differences(answering({PINGREQ: ping}), [A])[:2],
                         ["a", "wanted:  nothing"])
        wanted = {"a": [[], [{"topic": "x", "payload": "p"}] * 2]}
        self.assertEqual(self.differences(answering({PINGREQ: ping}), [A | {"gets": wanted}]), [])

    def test_refused(self):
        step = {"do": "subscribe", "client": "a", "filter": "x", "refused": True}
        self.assertEqual(self.differences(answering({SUBSCRIBE: lambda mid: None}), [A, step]), [])
        self.assertEqual(self.differences(acknowledged_with_pings, [A, step])[0], "answered")


def acknowledged_with_pings(kind: int, mid: bytes) -> bytes | None:
    return PINGRESP if kind == PINGREQ else acknowledged(kind, mid)


class Corpus(unittest.TestCase):
    def test_each_case_asks_something(self):
        for section in read_sections(TOP / "conformance"):
            for case in section.cases:
                if case.is_of_packets:
                    with self.subTest(case.path):
                        does = {step["do"] for step in case.script}
                        asked = {name for step in case.script for name in step}
                        self.assertTrue({"gets", "answered", "ends", "present"} & asked
                                        or {"subscribe", "drop"} <= does)


if __name__ == "__main__":
    unittest.main()
