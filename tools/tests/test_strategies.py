"""The Hypothesis strategies of scripts, and the example that uses them."""
import json
import subprocess
import sys
import unittest

from worked import HERE, TOP
try:
    import hypothesis
except ImportError:
    hypothesis = None

from mqroute_tools.plain.reader import Reader

EXAMPLE = TOP / "examples/hypothesis"
SMALLEST = ["{'do': 'subscribe', 'client': 'a', 'filter': '+'}",
            "{'do': 'publish', 'client': 'a', 'topic': '$x', 'payload': '1'}"]


@unittest.skipUnless(hypothesis, "there is no python3-hypothesis")
class Scripts(unittest.TestCase):
    def refused(self, commands: list) -> list[bytes]:
        reader = Reader()
        answers = [reader.answer(json.dumps(command).encode()) for command in commands]
        return [answer for answer in answers if b"refused" in answer]

    def test_every_command_is_answered(self):
        import mqroute_strategies
        seen: set[str] = set()

        @hypothesis.settings(max_examples=200, deadline=None, derandomize=True, database=None)
        @hypothesis.given(mqroute_strategies.scripts())
        def each(commands: list) -> None:
            self.assertEqual(self.refused(commands), [])
            seen.update(name for command in commands for name in command)
        each()
        self.assertEqual(seen, {
            "do", "client", "filter", "topic", "payload", "qos", "retain", "expiry", "no_local",
            "rap", "handling", "id", "clean", "session_expiry", "seconds"})

    def test_without(self):
        import mqroute_strategies
        seen: set[str] = set()

        @hypothesis.settings(max_examples=100, deadline=None, derandomize=True, database=None)
        @hypothesis.given(mqroute_strategies.scripts(without=mqroute_strategies.PARTS))
        def each(commands: list) -> None:
            for command in commands:
                seen.update(command)
                name = command.get("filter", "") + command.get("topic", "")
                self.assertFalse(set("+#$") & set(name), command)
        each()
        self.assertEqual(seen, {"do", "client", "filter", "topic", "payload"})
        with self.assertRaisesRegex(ValueError, "no part: wings"):
            mqroute_strategies.scripts(without=["wings"])

    def test_example_finds_the_smallest(self):
        done = subprocess.run(
            [sys.executable, "-W", "ignore", "-m", "unittest", "test_broker"], cwd=EXAMPLE,
            capture_output=True, text=True, env={"PYTHONPATH": ":".join([str(HERE), *sys.path])})
        self.assertEqual(done.returncode, 1, done.stderr)
        for line in SMALLEST:
            self.assertIn(line, done.stderr)


if __name__ == "__main__":
    unittest.main()
