"""A broker under test, beside an Oracle, on scripts of a Hypothesis strategy:

    PYTHONPATH=../../tools python3 -m unittest test_broker

The broker forgets that a topic that begins with `$` isn't for a filter that begins with a wildcard.
Hypothesis finds it, and shows the smallest script that it can.
"""
import unittest

from hypothesis import given, settings
from mqroute import Oracle
from mqroute_strategies import scripts


class Broker:
    """Who is sent what is published, by plain filters."""

    def __init__(self):
        self.filters = {}

    def matches(self, name, topic):
        wanted, levels = name.split("/"), topic.split("/")
        if wanted[-1] == "#":
            wanted = wanted[:-1]
            levels = levels[:len(wanted)]
        return len(wanted) == len(levels) and all(
            want in ("+", level) for want, level in zip(wanted, levels))

    def do(self, command):
        """The clients that are sent a copy."""
        do, client = command["do"], command["client"]
        if do in ("connect", "disconnect"):
            self.filters[client] = set()
        elif do == "subscribe":
            self.filters[client].add(command["filter"])
        elif do == "unsubscribe":
            self.filters[client].discard(command["filter"])
        else:
            return {name for name, held in self.filters.items()
                    if any(self.matches(one, command["topic"]) for one in held)}
        return set()


ROUTING = ("groups", "retained", "identifiers", "sessions", "expiry", "options", "qos", "clock")


class AsMqroute(unittest.TestCase):
    @settings(max_examples=300, derandomize=True, deadline=None, database=None)
    @given(scripts(without=ROUTING))
    def test_who_is_sent_what(self, commands):
        broker = Broker()
        with Oracle() as oracle:
            for command, answers in zip(commands, oracle.run(commands)):
                wanted = {copy["client"] for copy in answers if "topic" in copy}
                self.assertEqual(broker.do(command), wanted, command)


if __name__ == "__main__":
    unittest.main()
