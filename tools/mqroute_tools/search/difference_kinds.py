"""Which differences between a broker and mqroute are of one kind: what differs,
and what the script uses."""
import re
from collections.abc import Iterator
from typing import NamedTuple

from ..common.texts import lines as lines_of
from ..live.stored_diff import are_near, is_near
from ..live.wills import PAYLOAD
from ..script.output import Command
from ..script.topics import plain_filter

OURS, THEIRS = "      mqroute: ", "      broker:  "
NOBODY = "   reason: mqroute 0, broker 16"
LONG = 1000  # bytes of a payload, from where on one is long
DEEP = 5  # levels
MANY = 40  # lines of a script
# What differs where a copy's number of it does, and nothing else.
COUNTED = ("missing", "more")  # of copies
ALONE = {"ids": "identifiers", "qos": "QoS"}
TEXT = r'"[^"]*"(?: and \d+ characters? more)?'  # a payload, as it is shown
PART = re.compile(
    rf'(qos|retain|payload|ids|expiry) (\[[^]]*\]|{TEXT}(?:, {TEXT})*|[^,]+)')


class Difference(NamedTuple):
    line: int
    what: str  # such as "publish: missing"
    texts: list[str]  # as replay prints them

    def is_as(self, other: "Difference") -> bool:
        """Whether it's the same at the same line, but for a little of an interval."""
        return (self.line == other.line and self.what == other.what
                and are_near(self.texts, other.texts))


class Kind(NamedTuple):
    what: str
    uses: frozenset[str]

    def covers(self, other: "Kind") -> bool:
        """Whether the other may be this one, with more around it."""
        return self.uses <= other.uses and (self.what == other.what or self.shows_as(other.what))

    def shows_as(self, what: str) -> bool:
        """Whether a copy more or less shows so, beside copies by overlapping subscriptions."""
        do, _, mine = self.what.partition(": ")
        return mine in COUNTED and what in {f"{do}: {alone}" for alone in ALONE.values()}


def fewer(here: str, there: str) -> bool:
    """Whether the broker's numbers are fewer than ours, or as many and less."""
    mine, other = ([int(number) for number in re.findall(r"\d+", side)] for side in (here, there))
    return len(other) < len(mine) or (len(mine) == len(other) and other < mine)


def of_payloads(here: str, there: str) -> str:
    mine, other = (set(re.findall(TEXT, side)) for side in (here, there))
    return "more" if mine < other else "missing" if other < mine else "payload"


def of_part(name: str, here: str, there: str) -> str:
    if name in ("retain", "expiry"):
        return name
    if name == "payload":
        return of_payloads(here, there)
    return "missing" if fewer(here, there) else "more"


def of_parts(ours: str, theirs: str) -> list[str]:
    """A client's copies of one topic are joined: of a copy more or less the rest has other
    identifiers, QoS and payloads."""
    here, there = (dict(PART.findall(side)) for side in (ours, theirs))
    found = {}
    for name in ("qos", "ids", "payload", "retain", "expiry"):
        mine, other = here.get(name, ""), there.get(name, "")
        if mine != other and not (name == "expiry" and is_near(f"expiry {mine}",
                                                               f"expiry {other}")):
            found[name] = of_part(name, mine, other)
    if len(found) == 1 and re.fullmatch(TEXT, here.get("payload", "")):
        found |= {name: ALONE[name] for name in found.keys() & ALONE.keys()}
    return sorted(set(found.values()))


def of_copies(head: str, ours: str, theirs: str) -> list[str]:
    """What is wrong with a client's copies of one topic."""
    if ours == "nothing":
        return ["more"]
    if theirs == "nothing":
        return ["missing"]
    if head.endswith(" order"):
        return ["order"]
    if head.endswith(", copy by copy"):
        return ["copies of groups"]
    if re.match(r"\d+ cop", ours):
        return ["missing" if fewer(ours, theirs) else "more"]
    return of_parts(ours, theirs) or ["differs"]


def separate(line: int, do: str, texts: list[str], ended: str = "") -> Iterator[Difference]:
    """What differs at a line, one by one; `ended` is what ended the run there. That nobody got a
    message says no more than that a copy is missing."""
    if ended:
        yield Difference(line, f"{do}: {ended}", texts)
        return
    rest, missing = list(texts), False
    while rest:
        if len(rest) > 2 and rest[1].startswith(OURS) and rest[2].startswith(THEIRS):
            block, rest = rest[:3], rest[3:]
            found = of_copies(block[0], block[1][len(OURS):], block[2][len(THEIRS):])
            missing = missing or "missing" in found
        else:
            block, rest = rest[:1], rest[1:]
            found = ["missing" if missing and block[0] == NOBODY else block[0].strip()]
        yield from (Difference(line, f"{do}: {what}", block) for what in found)


def of_name(name: str) -> set[str]:
    """What a topic or filter has beyond few short levels."""
    return {use for use, has in (("upper case", name != name.lower()),
                                 ("no ASCII", not name.isascii()),
                                 ("empty level", "" in name.split("/")),
                                 ("five levels", name.count("/") + 1 >= DEEP)) if has}


def of_subscribe(command: Command, before: set[tuple[str, str]]) -> set[str]:
    name = command["filter"]
    shared = name.startswith("$share/")
    plain = plain_filter(name)
    uses = {"subscribe", "group" if shared else "plain"} | {sign for sign in "#+" if sign in plain}
    uses |= {field for field in ("no_local", "rap", "id", "qos") if command.get(field)}
    uses |= of_name(plain)
    if plain.startswith("$"):
        uses.add("$SYS filter" if plain.startswith("$SYS") else "$ filter")
    if command.get("handling"):
        uses.add(f"handling {command['handling']}")
    if (command["client"], name) in before:
        uses.add("subscribes again")
    before.add((command["client"], name))
    return uses


def of_connect(command: Command, live: set[str]) -> set[str]:
    uses = {"taken over"} if command["client"] in live else set()
    if command.get("session_expiry"):
        uses.add("session")
    if not command.get("clean", True):
        uses.add("resumes")
    return uses


def of_publish(command: Command) -> set[str]:
    uses = {"publish"} | of_name(command["topic"])
    if len(command.get("payload", "")) > LONG:
        uses.add("long payload")
    if command.get("retain"):
        uses.add("retain")
    if command.get("qos"):
        uses.add("publish qos")
    if command["topic"].startswith("$"):
        uses.add("$SYS topic" if command["topic"].startswith("$SYS") else "$ topic")
    if not command["topic"].isprintable():
        uses.add("control character")
    if "expiry" in command:
        uses.add("expiry" if command["expiry"] else "expiry 0")
    if command.get("payload") == PAYLOAD:
        uses.add("will")
    if command.get("retain") and not command.get("payload"):
        uses.add("clear")
    return uses


def of_access(text: str) -> set[str]:
    """What an access list says, and the signs that its names have."""
    lines = [line.split(" ") for line in lines_of(text)]
    signs = {"acl " + sign for sign in ("#", "+", "%c", "%u")
             for words in lines if sign in words[-1]}
    return {"acl"} | {" ".join(words[:-1]) or words[0] for words in lines} | signs


def uses(script: list[Command]) -> frozenset[str]:
    """What of MQTT the script uses."""
    found: set[str] = set()
    live: set[str] = set()
    before: set[tuple[str, str]] = set()
    if len(script) > MANY:
        found.add("many lines")
    for command in script:
        do = command["do"]
        if do == "subscribe":
            found |= of_subscribe(command, before)
        elif do == "publish":
            found |= of_publish(command)
        elif do == "connect":
            found |= of_connect(command, live)
            live.add(command["client"])
        elif do == "acl":
            found |= of_access(command.get("text", ""))
        else:
            found.add(do)
            live -= {command.get("client")} if do == "disconnect" else set()
    return frozenset(found)


def kind(script: list[Command], difference: Difference) -> Kind:
    return Kind(difference.what, uses(script[:difference.line]))
