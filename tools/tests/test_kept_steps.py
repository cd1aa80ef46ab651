"""The steps of a log as they are kept in a file for a comparison: as they were read."""
import argparse
import tempfile
import unittest
from pathlib import Path

from worked import TOP
from mqroute_tools.log.clients import Inferred
from mqroute_tools.log.log_files import Logs
from mqroute_tools.log.recording import BATCH, KeptSteps
from mqroute_tools.log.script_writer import read_logs
from mqroute_tools.log.step_reader import Watcher, steps
from mqroute_tools.log.steps import Event, Step
from mqroute_tools.log.mosquitto_log import Publish

OPTIONS = argparse.Namespace(session_expiry=None, time_format=None, no_inference=False, begin=None)


class Kept(unittest.TestCase):
    def test_as_they_were_read(self):
        """With which commands no line of the log shows, in more than one batch."""
        with tempfile.TemporaryDirectory() as folder:
            kept = KeptSteps(str(Path(folder, "steps")))
            for name in ("mixed", "sessions", "plain"):
                with self.subTest(name=name):
                    read = self.read(TOP / f"brokers/recorded/{name}.log", kept)
                    again = list(kept)
                    self.assertGreater(len(read), BATCH)
                    self.assertEqual(len(again), len(read))
                    for one, other in zip(read, again):
                        self.same(one, other)

    def read(self, path: Path, kept: KeptSteps) -> list[Step]:
        logs = Logs([str(path)])

        def work(watcher: Watcher) -> list[Step]:
            found = []
            with kept.written() as add:
                for step in steps(watcher, logs.streams(watcher)):
                    found.append(step)
                    add(step)
            return found
        return read_logs(Watcher, OPTIONS, logs, work)[1]

    def same(self, one: Step, other: Step) -> None:
        for name in ("place", "commands", "events", "shared", "old_protocol", "renamed", "flying"):
            self.assertEqual(getattr(one, name), getattr(other, name), (one.place, name))
        self.assertEqual(one.broker.refused, other.broker.refused)
        self.assertEqual([type(command) is Inferred for command in one.commands],
                         [type(command) is Inferred for command in other.commands])
        for event in other.events:
            self.assertIs(type(event), Event)
            self.assertIn(type(event.copy), (Publish, type(None)))


if __name__ == "__main__":
    unittest.main()
