"""Logs that begin with the broker's start: they are read once, unless they show what is older."""
import argparse
import tempfile
import unittest
from pathlib import Path

from test_inference import routed, sent, written
from test_log_to_script import arrival, published, subscribing
from mqroute_tools.common.exit_status import Fault
from mqroute_tools.log.conversion import placed_commands
from mqroute_tools.log.log_files import Logs
from mqroute_tools.log.script_writer import Writer, read_logs

START = "mosquitto version 2.0.11 starting\n"
OPTIONS = argparse.Namespace(session_expiry=None, time_format=None, no_inference=False, begin=None)
KEPT = "p5, c0, k60"
ENDS = "Client b disconnected.\n"
RETAINED = sent("b", "old", retain=1)


class OneReading(unittest.TestCase):
    def read(self, text: str, fail: bool = False, again: bool = True) -> Writer:
        """Reads the text as log files are read, and compares the script with that of two
        readings. With `fail` the first work ends with a fault."""
        def work(found: Writer) -> list[dict]:
            if fail and found.begins.fresh:
                raise Fault("of another script")
            return [command for _, command in placed_commands(found, logs.streams(found))]
        with tempfile.TemporaryDirectory() as folder:
            Path(folder, "log").write_text(text, encoding="utf-8")
            logs = Logs([f"{folder}/log"])
            found, commands = read_logs(Writer, OPTIONS, logs, work, again=again)
        wanted, twice = written(text)
        self.assertEqual((commands, found.notes.counts), (wanted, twice.notes.counts))
        self.assertEqual(found.explained, twice.explained)
        self.assertEqual(logs.where(1), f"{folder}/log:1")
        return found

    def once(self, text: str, **more: bool) -> None:
        self.assertTrue(self.read(START + text, **more).begins.fresh)

    def twice(self, text: str, **more: bool) -> None:
        self.assertFalse(self.read(text, **more).begins.fresh)

    def test_nothing_older(self):
        self.once("")
        self.once(arrival("p") + arrival("b") + subscribing("b", ("x", 0)) + routed("x", "b"))
        self.once(arrival("p") + published("p", "x", "d0, q0, r1, m0") + arrival("b")
                  + subscribing("b", ("x", 0)) + sent("b", "x", retain=1))

    def test_sessions_from_one_connection_to_the_next(self):
        for last in (arrival("b", KEPT, present=1), arrival("b", KEPT), arrival("b"), ""):
            text = arrival("b", KEPT) + subscribing("b", ("x", 1)) + ENDS + last
            self.once(text)
            self.once("\ufeff \r\n" * 3 + text * 30)

    def test_a_long_log(self):
        """Of which the file is read in many pieces, and a line too long for the broker."""
        more = "".join(published("p", f"{'x' * 900}/{n}") for n in range(2_000))
        self.once(arrival("p") + arrival("b", KEPT) + more + "x" * 900_000 + "\n" + ENDS
                  + arrival("b", KEPT, present=1) + more)

    def test_without_the_start(self):
        self.twice(arrival("p") + arrival("b"))
        self.twice("x" + START + arrival("b"))

    def test_lines_before_the_start(self):
        prefix = "Nov 24 18:40:00 host "
        text = "".join(f"{prefix}mosquitto[123]: {line}\n"
                       for line in (START + arrival("b")).splitlines())
        found = self.read(f"{prefix}systemd[1]: Starting Mosquitto.\n" + text)
        self.assertTrue(found.begins.fresh)

    def test_a_session_that_the_broker_had_stored(self):
        self.twice(START + arrival("p") + arrival("b", KEPT, present=1) + routed("x", "b"))
        self.twice(START + arrival("p", "p2, c0, k60", present=1) + published("p", "x"))

    def test_a_message_that_the_broker_had_stored(self):
        text = arrival("p") + arrival("b") + subscribing("b", ("#", 0))
        self.twice(START + text + RETAINED)
        self.once(text + RETAINED.replace("'old'", "'$SYS/x'"))

    def test_a_client_without_its_connect(self):
        self.twice(START + published("p", "x"))
        self.twice(START + arrival("p") + published("p", "x") + sent("b", "x"))

    def test_a_bridge_of_the_broker(self):
        self.twice(START + "Bridge b doing local SUBSCRIBE on topic x\n")

    def test_a_fault_by_what_is_older(self):
        """A comparison with the output for the right script, in which another stands first."""
        text = arrival("p") + arrival("b", KEPT, present=1) + routed("x", "b")
        self.twice(START + text, fail=True)
        self.twice(START + arrival("p"), fail=True)

    def test_work_that_can_be_done_once_alone(self):
        self.twice(START + arrival("p"), again=False)


if __name__ == "__main__":
    unittest.main()
