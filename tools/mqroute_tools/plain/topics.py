"""Topic names and filters."""
from collections.abc import Callable

from .refusals import refuse_if

LONGEST_TEXT = 65_535  # bytes
MOST_LEVELS = 200
SHARE = "$share/"


def levels(text: str) -> list[str]:
    return text.split("/")


def level_order(text: str) -> list[bytes]:
    return [level.encode() for level in levels(text)]


def fits(text: str) -> bool:
    return (1 <= len(text.encode()) <= LONGEST_TEXT and "\0" not in text
            and len(levels(text)) <= MOST_LEVELS)


def is_name(text: str) -> bool:
    return fits(text) and "+" not in text and "#" not in text


def is_filter(text: str) -> bool:
    def is_level(place: int, level: str) -> bool:
        last = place == len(levels(text)) - 1
        return ("+" not in level or level == "+") and ("#" not in level or level == "#" and last)
    return fits(text) and all(is_level(place, level) for place, level in enumerate(levels(text)))


def subscription(text: str) -> tuple[str | None, str]:
    """The share name, or none, and the filter of a subscription text."""
    if not text.startswith(SHARE):
        refuse_if(not is_filter(text), "TopicFilter")
        return None, text
    share, slash, wanted = text[len(SHARE):].partition("/")
    is_share = share != "" and "+" not in share and "#" not in share and "\0" not in share
    is_whole = bool(slash) and is_filter(wanted) and len(text.encode()) <= LONGEST_TEXT
    refuse_if(not (is_share and is_whole), "TopicFilter")
    return share, wanted


def match_levels(wanted: list[str], name: list[str], is_level: Callable[[str, str], bool]) -> bool:
    if wanted[-1] == "#":
        front = wanted[:-1]
        return len(name) >= len(front) and all(map(is_level, front, name))
    return len(wanted) == len(name) and all(map(is_level, wanted, name))


def matches(wanted: str, name: str) -> bool:
    if name.startswith("$") and levels(wanted)[0] in ("+", "#"):
        return False
    return match_levels(levels(wanted), levels(name), lambda want, have: want in ("+", have))
