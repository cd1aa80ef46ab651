"""The lines of a plan: rules, and what is wrong with a line (docs/definitions/plans.md)."""
import re

from ..common.texts import quoted
from .filters import HASH, MOST_LEVELS, PLUS, is_filter_level
from .rules import Capture, Item, Rule, Side

LONGEST = 300  # bytes of a level
BLANKS = " \t"
NAME = re.compile(r"[A-Za-z0-9_-]*", re.A)
ARROW = re.compile(r"[ \t]->(?=[ \t]|\Z)")
MOVED_HASH = re.compile(r"#[ \t]+->(?:[ \t]|\Z)")
MARKS = ("%c", "%u")
EXPECTED = "expected FROM -> TO, keep FROM or none FROM"


class LineFault(Exception):
    """What is wrong with a line."""


def rule_of(number: int, line: str) -> Rule | None:
    """The rule on a line; None of a comment or an empty line."""
    text = line.lstrip(BLANKS).rstrip(BLANKS + "\r")
    if not text or (text.startswith("#") and not MOVED_HASH.match(text)):
        return None
    arrow = ARROW.search(text)
    if arrow:
        left = trimmed(text[:arrow.start()])
        right = trimmed(text[arrow.end():])
        return Rule(number, text, *renamed(left, right))
    word, rest = split_word(text)
    if word not in ("keep", "none") or not rest:
        raise LineFault(EXPECTED)
    side = side_of("FROM", rest)
    refuse_twice(side)
    named = numbered(side)
    return Rule(number, text, named, named if word == "keep" else None)


def trimmed(text: str) -> str:
    return text.lstrip(BLANKS).rstrip(BLANKS + "\r")


def split_word(text: str) -> tuple[str, str]:
    """The first word, and what follows its blanks."""
    end = min((text.find(blank) for blank in BLANKS if blank in text), default=len(text))
    return text[:end], text[end:].lstrip(BLANKS)


def renamed(left_text: str, right_text: str) -> tuple[Side, Side]:
    if not right_text:
        raise LineFault("TO is missing; for topics that go away write: none FROM")
    left, right = side_of("FROM", left_text), side_of("TO", right_text)
    refuse_twice(left)
    refuse_unnamed(left, right)
    for item in right:
        if (item == HASH or is_named(item)) and item not in left:
            raise LineFault(f"FROM has no {text_of_item(item)}")
    if isinstance(right[0], Capture) or right[0] == HASH:
        raise LineFault("TO must begin with a level of its own")
    return numbered(left), numbered(right)


def side_of(which: str, text: str) -> Side:
    """The levels of a side; each `+` without a name is the same capture."""
    parts = text.split("/")
    if not text:
        raise LineFault(f"{which} is missing")
    if len(parts) > MOST_LEVELS or any(len(part.encode()) > LONGEST for part in parts):
        raise LineFault(f"{which} has more than {MOST_LEVELS} levels, or a level of more than "
                        f"{LONGEST} bytes")
    for place, level in enumerate(parts):
        what = level_fault(level, place == len(parts) - 1)
        if what:
            raise LineFault(f"{which} has a level {quoted(level)}: {what}")
    return tuple(Capture(part[1:]) if part.startswith(PLUS) else part for part in parts)


def level_fault(level: str, is_last: bool) -> str:
    if level.startswith(PLUS):
        return "" if NAME.fullmatch(level[1:]) else "a name has letters, digits, - and _"
    if level in MARKS:
        return "a plan has no %c and %u"
    return "" if is_filter_level(level, is_last) else (
        "it can't be a level of a topic filter there")


def is_named(item: Item) -> bool:
    return isinstance(item, Capture) and item.name != ""


def text_of_item(item: Item) -> str:
    return PLUS + item.name if isinstance(item, Capture) else item


def refuse_twice(left: Side) -> None:
    for item in left:
        if is_named(item) and left.count(item) > 1:
            raise LineFault(f"{text_of_item(item)} stands more than once in FROM")


def refuse_unnamed(left: Side, right: Side) -> None:
    """Each `+` without a name on the right has its one on the left by its number."""
    counts = [side.count(Capture("")) for side in (left, right)]
    has_name = any(is_named(item) for item in left + right)
    if counts[1] and (counts[0] != counts[1] or has_name):
        raise LineFault(f"FROM has {counts[0]} + and TO has {counts[1]}: name them, as in +hall")


def numbered(side: Side) -> Side:
    """With a number, which isn't a name, for each `+` without one."""
    count, made = 0, list(side)
    for place, item in enumerate(side):
        if item == Capture(""):
            count += 1
            made[place] = Capture(f" {count}")
    return tuple(made)
