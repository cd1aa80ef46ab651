"""Access lists, and who may read and write which topics."""
from dataclasses import dataclass
from enum import Enum

from .topics import is_filter, levels, match_levels

ACCESS: dict[str, set[str]] = {
    "read": {"read"}, "write": {"write"}, "readwrite": {"read", "write"}, "deny": set()}


class Who(Enum):
    """Whom lines are about that name no user."""
    ALL = 1
    ANONYMOUS = 2


ALL, ANONYMOUS = Who.ALL, Who.ANONYMOUS


@dataclass
class Row:
    who: Who | str
    is_deny: bool
    grants: set[str]
    topic: str

    def applies(self, user: str | None) -> bool:
        return self.who is ALL or self.who is ANONYMOUS and user is None or self.who == user

    def covers(self, client: str, user: str | None, name: str) -> bool:
        if name.startswith("$") and not self.topic.startswith("$"):
            return False

        def is_level(want: str, have: str) -> bool:
            if self.who is ALL and want in ("%c", "%u"):
                return have == (client if want == "%c" else user)
            return want in ("+", have)
        return match_levels(levels(self.topic), levels(name), is_level)


def first_word(text: str) -> tuple[str, str]:
    ends = [text.find(blank) for blank in " \t" if blank in text]
    end = min(ends, default=len(text))
    return text[:end], text[end:].lstrip(" \t")


@dataclass
class Fault:
    """The first line that is wrong, and its kind."""
    line: int
    kind: str


def rows_of(text: str) -> list[Row] | Fault:
    rows: list[Row] = []
    who: Who | str = ANONYMOUS
    for number, line in enumerate(text.split("\n"), 1):
        line = line.lstrip(" \t").rstrip(" \t\r")
        if line == "" or line.startswith("#"):
            continue
        keyword, rest = first_word(line)
        if keyword not in ("topic", "pattern", "user"):
            return Fault(number, "Keyword")
        if keyword == "user":
            if rest == "":
                return Fault(number, "User")
            who = rest
            continue
        if rest == "":
            return Fault(number, "Topic")
        access, topic = first_word(rest)
        if topic == "":
            access, topic = "readwrite", rest
        elif access not in ACCESS:
            return Fault(number, "Access")
        if not is_filter(topic):
            return Fault(number, "Topic")
        marked = [level for level in levels(topic) if "%c" in level or "%u" in level]
        if keyword == "pattern" and any(level not in ("%c", "%u") for level in marked):
            return Fault(number, "Pattern")
        rows.append(
            Row(ALL if keyword == "pattern" else who, access == "deny", ACCESS[access], topic))
    return rows


def allowed(rows: list[Row] | None, client: str, user: str | None, name: str,
            direction: str) -> bool:
    if rows is None:
        return True
    found = [row for row in rows if row.applies(user) and row.covers(client, user, name)]
    return any(direction in row.grants for row in found) and not any(row.is_deny for row in found)
