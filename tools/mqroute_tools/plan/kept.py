"""What a broker keeps under old names when topics are renamed: retained messages, and the
subscriptions of sessions that are away."""
import re
from collections.abc import Iterator
from dataclasses import dataclass, field
from typing import Any

from ..common.messages import counted
from ..script.commands import connect_command
from ..script.output import Command
from .day_end import Away, DayEnd, Message
from .filters import levels, meet, split_share, text_of
from .script_translation import new_filters, text_of_command
from .topic_plan import Plan
from .translator import Translator

SIZE = re.compile(r"\d+ bytes")  # what a script of a log has in the place of a payload
UNKNOWN = "its payload isn't known: it can be cleared, and not moved"
NAMELESS = "no new name: it isn't cleared"
SAME = "the same is retained under the new name already"
OTHER = "another payload or QoS is retained under the new name already: that stays"
SOME = "something is retained under the new name already: that stays"
STAYS = ("They stay in the broker under their old names until they are cleared. Who subscribes to "
         "the new names isn't sent them.")
AWAY = ("The broker keeps these subscriptions until the client unsubscribes or begins a new "
        "session. Nothing waits for it under the new names before it subscribes to them.")
BEFORE = "what the broker had before the first line of the script"
NO_LIST = "what an access list refuses, since none is given"
PROPERTIES = "properties of MQTT 5 other than the expiry"
Json = dict[str, Any]


@dataclass(frozen=True)
class Move:
    """A retained message under an old name: the new one, or None, and why it isn't published under
    that; empty: it is."""
    message: Message
    new: str | None
    why: str = ""

    def json(self) -> Json:
        found = self.message
        return {"topic": found.topic, "becomes": self.new, "line": found.line,
                "client": found.client, "user": found.user,
                "payload": None if is_unknown(found) else found.payload, "qos": found.qos,
                "expiry": found.expiry, "is_moved": not self.why, "words": self.why}


@dataclass(frozen=True)
class OldSession:
    """A session that is away, with its subscriptions under old names and what these become, and how
    many messages wait under old names."""
    away: Away
    becomes: dict[str, list[str]]
    waiting: int

    def json(self) -> Json:
        found = self.away
        return {"client": found.client, "user": found.user, "line": found.line,
                "waiting": self.waiting, "subscriptions": [
                    {"was": was, "becomes": new} for was, new in self.becomes.items()]}


@dataclass
class Kept:
    """`retained` and `away` count all that there are."""
    retained: int = 0
    away: int = 0
    moves: list[Move] = field(default_factory=list)
    sessions: list[OldSession] = field(default_factory=list)
    not_known: list[str] = field(default_factory=list)

    def renamed(self) -> list[Move]:
        return [move for move in self.moves if move.new is not None]

    def moved(self) -> list[Move]:
        return [move for move in self.moves if not move.why]

    def of_retained(self) -> str:
        """In words, how many are retained, and under which names."""
        renamed = len(self.renamed())
        nameless = len(self.moves) - renamed
        none = f", and {having(nameless)} none" if nameless else ""
        return (f"{counted(self.retained, 'messages', ',')}, of which {having(renamed)} another "
                f"new name{none}")

    def of_sessions(self) -> str:
        return (f"{counted(self.away, 'sessions', ',')}, of which {having(len(self.sessions))} "
                "subscriptions under old names")

    def unknown(self) -> str:
        return f"Not known: {'; '.join(self.not_known)}."

    def sums(self) -> Json:
        renamed = len(self.renamed())
        return {"retained": self.retained, "renamed": renamed, "moved": len(self.moved()),
                "nameless": len(self.moves) - renamed, "away": self.away,
                "sessions": len(self.sessions)}

    def json(self) -> Json:
        return {"retained": [move.json() for move in self.moves],
                "sessions": [one.json() for one in self.sessions], "totals": self.sums(),
                "not_known": self.not_known}


def having(number: int) -> str:
    return f"{number:,} {'has' if number == 1 else 'have'}"


def kept_of(translator: Translator, end: DayEnd, has_list: bool) -> Kept:
    """What `end` has under old names."""
    found = Kept(len(end.retained), len(end.away), list(moves(translator.plan, end.retained)))
    sessions = (old_session(translator, away) for away in end.away)
    found.sessions = [one for one in sessions if one.becomes]
    unknown = sum(is_unknown(move.message) for move in found.renamed())
    sizes = [f"{counted(unknown, 'payloads', ',')}, of which the script has the size alone"]
    found.not_known = [BEFORE, *([] if has_list else [NO_LIST]), *(sizes if unknown else []),
                       PROPERTIES]
    return found


# -- retained messages

def moves(plan: Plan, retained: list[Message]) -> Iterator[Move]:
    """Of several that become one topic the last stays. What stands under the new name already does
    so before all of them."""
    names = {one.topic: new_text(plan, one.topic) for one in retained}
    old = [one for one in retained if is_old(plan, one.topic)]
    last = {names[one.topic]: one for one in old}
    stands = {one.topic: one for one in retained if one not in old}
    for one in old:
        new = names[one.topic]
        why = NAMELESS if new is None else why_not(one, last[new], stands.get(new))
        yield Move(one, new, why)


def why_not(one: Message, last: Message, stands: Message | None) -> str:
    """Why a message isn't published under its new name; empty: it is."""
    if stands is not None and is_unknown(one):
        return SOME
    if stands is not None:
        return SAME if (stands.payload, stands.qos) == (one.payload, one.qos) else OTHER
    if last is not one:
        return f"line {last.line} becomes the same topic, and is later: that stays"
    return UNKNOWN if is_unknown(one) else ""


def new_text(plan: Plan, topic: str) -> str | None:
    new = plan.new_name(levels(topic))
    return None if new is None else text_of(new)


def is_old(plan: Plan, topic: str) -> bool:
    """Whether nobody uses the name any more when the plan is in force."""
    name = levels(topic)
    rule, new = plan.rule_for(name), plan.new_name(name)
    has_another = rule is not None and rule.moves
    return new != name and (has_another or not plan.is_reserved(name))


def is_unknown(message: Message) -> bool:
    """Whether the script may have but the size of its payload."""
    return SIZE.fullmatch(message.payload) is not None


# -- sessions

def old_session(translator: Translator, away: Away) -> OldSession:
    plan = translator.plan
    becomes = {text: new for text in away.filters
               if (new := new_filters(translator, text)) != [text]
               and (new or not may_match_new(plan, text))}
    waiting = sum(count for topic, count in away.waiting.items() if is_old(plan, topic))
    return OldSession(away, becomes, waiting)


def may_match_new(plan: Plan, text: str) -> bool:
    """Whether a subscription may match new names."""
    parts = split_share(text)
    return parts is not None and any(meet(parts[1], wanted) for wanted in plan.reserved)


# -- the script that moves them

def moving_script(kept: Kept, client: str, user: str | None, both: bool) -> list[Command]:
    """Publishes what is retained under the new names, and clears the old ones, but for those that
    are new ones too; with `both` the old ones stay."""
    published = {move.new for move in kept.moved()}
    found: list[Command] = []
    for move in kept.renamed():
        found += [] if move.why else [new_publish(move, client)]
        if not both and move.message.topic not in published:
            found.append(retained(client, move.message.topic))
    return [connect_command(client, user), *found] if found else []


def script_text(commands: list[Command]) -> bytes:
    return b"".join(text_of_command(command) + b"\n" for command in commands)


def retained(client: str, topic: str | None, **fields: Any) -> Command:
    """Without a payload it clears what is retained."""
    return {"do": "publish", "client": client, "topic": topic, **fields, "retain": True}


def new_publish(move: Move, client: str) -> Command:
    message = move.message
    qos = {"qos": message.qos} if message.qos else {}
    expiry = {} if message.expiry is None else {"expiry": message.expiry}
    return retained(client, move.new, payload=message.payload, **qos, **expiry)
