"""Tables on a terminal."""
from collections.abc import Container, Iterable

from .texts import quoted


def table(head: list[str], rows: Iterable[list[str]]) -> str:
    """Columns of numbers to the right, others to the left."""
    lines = [head, *rows]
    widths = [max(len(line[i]) for line in lines) for i in range(len(head))]
    right = [all(line[i].lstrip("-").isdigit() for line in lines[1:]) for i in range(len(head))]
    return "\n".join(
        "  ".join(c.rjust(w) if r else c.ljust(w) for c, w, r in zip(line, widths, right)).rstrip()
        for line in lines)


def columns(rows: Iterable[list[str]], right: Container[int] = ()) -> list[str]:
    """Lines without a head; the columns numbered in `right` are numbers, which may be absent."""
    lines = list(rows)
    count = max(map(len, lines), default=0)
    widths = [max(len(line[i]) for line in lines if i < len(line)) for i in range(count)]
    return ["  ".join(c.rjust(w) if i in right else c.ljust(w)
                      for i, (c, w) in enumerate(zip(line, widths))).rstrip() for line in lines]


def shown(text: str) -> str:
    """A client id or topic on one line of a table: in quotes where it has characters that are
    escaped, is empty, or has blanks around it."""
    plain = text.isprintable() and text == text.strip() and text
    return text if plain else quoted(text)


def user_shown(user: str | None) -> str:
    """A user name, or (none); a name that looks so is in quotes."""
    if user is None:
        return "(none)"
    return quoted(user) if user == "(none)" else shown(user)
