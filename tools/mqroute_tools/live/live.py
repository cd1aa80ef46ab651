"""A live broker in tests of one's own: runs commands on it and on mqroute, and gives what
differs."""
import importlib.util
from collections import Counter
from collections.abc import Iterable
from dataclasses import dataclass, field
from typing import Any

from ..script.fresh_names import Marks, fresh
from ..script.oracle import Oracle
from ..script.output import Command
from .options import BrokerOptions
from .refused_lines import not_sent
from .script_fitting import fitted_commands
from .stored_diff import head


@dataclass(frozen=True)
class Difference:
    """What differs at one of the commands."""
    line: int  # 1 is the first
    command: Command
    texts: list[str] = field(default_factory=list)  # as replay prints them

    def __str__(self) -> str:
        return "\n".join([head(self.line, self.command), *self.texts])


class Live:
    """A broker at a port of 127.0.0.1 that may be tried with anything.

    `more` are the fields of BrokerOptions: host, username, password, on_acl, patience and settle in
    seconds, protocol ("5" or "3.1.1"), any_member, tls, websockets. The oracle is one of the
    caller's, or one that is made for the program that is found.
    """

    def __init__(self, port: int, oracle: Oracle | None = None, **more: Any) -> None:
        if importlib.util.find_spec("paho") is None:
            raise ModuleNotFoundError("Live needs the package python3-paho-mqtt")
        from .live_broker import LiveBroker  # needs paho
        self.options = BrokerOptions(more.pop("host", "127.0.0.1"), port, **more)
        self.broker = LiveBroker(self.options)
        self.oracle = oracle or Oracle()
        self.marks = Marks()
        self.lacking: set[str] = set()  # what the last commands asked for and it doesn't offer
        self.not_sent: Counter[str] = Counter()  # why of the last commands some weren't sent

    def __enter__(self) -> "Live":
        return self

    def __exit__(self, *_: object) -> None:
        self.close()

    def close(self) -> None:
        self.oracle.close()

    def run(self, commands: Iterable[Command]) -> list[Difference]:
        """What differs, command by command; nothing where broker and mqroute agree.

        The commands are run with names that no others had, and what they leave is removed. Copies
        that a broker may send for each of overlapping subscriptions are joined, an interval may
        differ by two seconds, reason 0 does for 16; with `any_member` whose turn it is in a group
        is free. What the broker doesn't offer is left out on both sides.
        """
        script, self.lacking = fitted_commands(commands, self.broker.offer)
        mark = self.marks.next()
        marked = fresh(script, mark)
        blocks = self.oracle.blocks(marked)
        self.not_sent = not_sent(marked, blocks, self.options)
        found = self.broker.run(marked, blocks)
        return [Difference(one.line, script[one.line - 1],
                           [text.replace(mark, "") for text in one.texts]) for one in found]
