"""Answers to the lines of a script, as bytes."""
import json
from collections.abc import Iterable, Iterator

from . import access_lists, mosquitto_lists
from .lines import reading
from .refusals import CODES, Refused
from .world import Answer, Lists, World

LISTS: dict[str, Lists] = {"own": access_lists, "mosquitto": mosquitto_lists}
MOST_QUEUED = 1000  # copies that wait for a client, where nothing else is asked for


def printed(line: int, values: Answer) -> bytes:
    left_out = {name for name, value in values.items()
                if value is None or name == "ids" and value == []}
    kept = {name: it for name, it in values.items() if name not in left_out} | {"line": line}
    return json.dumps(
        kept, ensure_ascii=False, sort_keys=True, separators=(",", ":")).encode() + b"\n"


class Reader:
    """Answers one line after another. Raises FaultyList where the access list is none."""

    def __init__(self, acl: str | None = None, max_retained: int | None = None,
                 max_queued: int | None = None, rules: str | None = None) -> None:
        most = MOST_QUEUED if max_queued is None else max_queued
        self.world = World(acl, max_retained, most, LISTS[rules or "own"])
        self.line = 0
        self.has_refused = False

    def answer(self, line: bytes) -> bytes:
        """To a line without its line feed; empty of a blank one."""
        self.line += 1
        try:
            command = reading(line)
            if command is None:
                return b""
            copies, closing = self.world.apply(*command)
        except Refused as it:
            self.has_refused = True
            return printed(self.line, {"acl_line": it.acl_line, "code": CODES[it.name],
                                       "refused": it.name})
        return b"".join(printed(self.line, values) for values in [*copies, closing])

    def answers(self, lines: Iterable[bytes]) -> Iterator[bytes]:
        """To each line of a file, which ends in a line feed or isn't the last."""
        for line in lines:
            yield self.answer(line.removesuffix(b"\n"))
