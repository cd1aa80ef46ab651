"""Brokers that break one statement of the standard each: the small broker with one rule changed.

A mutant is named after the statement that it breaks, with a letter behind it where there are more
of one. Each name in `rules` is a method of Broker, each in `wire` one of Connection. They stand in
mutants_sessions.py, mutants_messages.py and mutants_subscriptions.py.
"""
import importlib
from dataclasses import dataclass

from broker import Broker
from broker_wire import Connection

MODULES = "mutants_sessions", "mutants_messages", "mutants_subscriptions"


@dataclass(frozen=True)
class Mutant:
    name: str
    says: str
    rules: dict
    wire: dict

    @property
    def statement(self):
        return self.name.rstrip("abcdef")


HELD = {}


def mutant(name, says, wire=None, **rules):
    HELD[f"MQTT-{name}"] = Mutant(f"MQTT-{name}", says, rules, wire or {})


def mutants():
    """By name."""
    for module in MODULES:
        importlib.import_module(module)
    return HELD


def broken(name):
    """The broker with this mutant's fault; the plain one where there is no name."""
    if not name:
        return Broker()
    chosen = mutants()[name]
    made = type("Broken", (Broker,), chosen.rules)()
    made.connection = type("BrokenConnection", (Connection,), chosen.wire)
    return made
