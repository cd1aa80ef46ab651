"""The first reading of a log that begins with the broker's start: nobody is connected then, and so
only lines about connections are needed."""
from collections.abc import Iterable, Iterator
from typing import BinaryIO

from . import mosquitto_log as log
from .broker_state import State
from .clients import Arrival
from .conversion import Converter
from .inference import Beginning
from .time_stamps import LOOKED_AT

WANTED = (b" connected from ", b"Sending CONNACK to ")  # words of the lines
OF_BRIDGE = b" doing local SUBSCRIBE on "


class Connections(Converter):
    """Reads who connects, and finds which sessions were kept from one connection to the next."""

    def __init__(self, form: str | None) -> None:
        super().__init__(0, form)
        self.last: dict[str, int] = {}  # the line of each client's last connect, of those of MQTT 5
        self.result = Beginning(State(), fresh=True)

    def connect(self, arrival: Arrival, client: str, user: str | None, clean: bool, protocol: int,
                present: bool) -> None:
        last = self.last.pop(client, None)
        if last is not None and (present or not clean):
            (self.result.kept if present else self.result.ended).add(last)
        if protocol >= 5:
            self.last[client] = arrival.place

    def begins_with_start(self, first: list[bytes]) -> bool:
        """Whether the first line that is the broker's own shows of its start."""
        texts = (self.stamps.split(line.decode("utf-8", "replace"))[1] for line in first)
        text = next((text for text in texts if text), "")
        return text.startswith("mosquitto version ") and text.endswith(" starting")

    def follow(self, block: bytes) -> None:
        """Reads those of the lines that are wanted, and counts the others."""
        passed = 0
        for start in sorted({start for word in WANTED for start in starts(word, block)}):
            end = block.index(b"\n", start)
            self.place += block.count(b"\n", passed, start)
            self.read(log.text_of(log.cut(block[start:end])))
            passed = end + 1
        self.place += block.count(b"\n", passed)


def starts(word: bytes, block: bytes) -> Iterator[int]:
    """Where the lines begin in which the word stands."""
    at = block.find(word)
    while at >= 0:
        yield block.rfind(b"\n", 0, at) + 1
        at = block.find(word, at + 1)


def connections(streams: Iterable[BinaryIO], form: str | None) -> Beginning | None:
    """What the logs show of sessions, if they begin with the broker's start; none where they don't,
    or where a bridge's own lines show more."""
    reader = Connections(form)
    for stream in streams:
        is_first = True
        with stream:
            for block in log.blocks(stream):
                if is_first:
                    first = log.lines_of(block)[:LOOKED_AT]
                    reader.stamps.decide([line.decode("utf-8", "replace") for line in first])
                if not reader.place and not reader.begins_with_start(first):
                    return None
                if OF_BRIDGE in block:
                    return None
                reader.follow(block)
                is_first = False
    return reader.result
