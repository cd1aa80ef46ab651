"""By how much real time runs ahead of a script's clock: a broker's intervals go by the first, those
of mqroute by the second."""
import math
import time
from collections.abc import Iterable

from ..script.output import Command
from .broker_diff import Copy


class Lateness:
    def __init__(self) -> None:
        self.began = time.monotonic()
        self.passed = 0  # seconds of the script's clock
        # when a message was published first, by topic and payload
        self.published: dict[tuple[str, str], float] = {}

    def now(self) -> float:
        return time.monotonic() - self.began - self.passed

    def publish(self, message: Command) -> None:
        """To be called before it is sent."""
        self.published.setdefault((message["topic"], message.get("payload", "")), self.now())

    def of(self, copy: Copy) -> float:
        """The seconds that a message may have lost beside those of the script's clock."""
        return self.now() - self.published.get((copy.topic, copy.payload), 0.0)

    def fitting(self, ours: Iterable[Copy], theirs: list[Copy]) -> list[Copy]:
        """Our copies, each with what it may have lost; those that may have expired by now, and
        didn't come, are left out."""
        came = {(copy.client, copy.topic, copy.payload) for copy in theirs}
        found = []
        for copy in ours:
            late = 0.0 if copy.expiry is None else self.of(copy)
            is_over = 0 < (copy.expiry or 0) <= late
            if not is_over or (copy.client, copy.topic, copy.payload) in came:
                found.append(copy._replace(late=math.ceil(late)))
        return found
