"""What of MQTT random scripts use: the parts by name."""
from collections.abc import Iterable
from typing import NamedTuple

PARTS = ("groups", "retained", "wildcards", "identifiers", "sessions", "expiry", "options",
         "dollar", "wills", "qos2", "qos")
# Access lists, where the broker can be given them; pauses in real time, where they are asked
# for; and names and marks that access lists by mosquitto's rules make much of.
ACCESS, CLOCK, MARKS = "access", "clock", "marks"
ODD = "odd"  # scenes behind the script: big and odd values, groups of three
ALL = (*PARTS, ACCESS, CLOCK, MARKS, ODD)
# Of MQTT 3.1.1 a session is kept for ever or not at all.
OLD_SESSIONS = "sessions of MQTT 3.1.1"


class Use(NamedTuple):
    parts: frozenset[str] = frozenset((*PARTS, ODD))

    def has(self, part: str) -> bool:
        return part in self.parts

    def with_part(self, part: str) -> "Use":
        return Use(self.parts | {part})

    def without(self, parts: Iterable[str]) -> "Use":
        left = self.parts - set(parts)
        return Use(left - {"qos2"} if "qos" not in left else left)

    def qos(self) -> int:
        return 2 if self.has("qos2") else int(self.has("qos"))
