"""The walk down the levels of all topic names at once: which names some rows allow and others
don't.

A row is a pair: whether it denies, and what is left of its filter.
"""
from collections.abc import Iterable

from .filters import HASH, PLUS, Levels

PLAIN, DOLLAR, SLASH, INSIDE = "plain", "dollar", "slash", "inside"
BUDGET = 200  # levels of a name

Rows = tuple[tuple[bool, Levels], ...]
Others = tuple[str, str]


def allowing(filters: Iterable[Levels]) -> Rows:
    return tuple((False, wanted) for wanted in filters)


def denying(filters: Iterable[Levels]) -> Rows:
    return tuple((True, wanted) for wanted in filters)


def start_of(wanted: Levels) -> str:
    return DOLLAR if wanted[0].startswith("$") else PLAIN


def fits_start(start: str, level: str) -> bool:
    if start == PLAIN:
        return not level.startswith("$")
    return start != DOLLAR or level.startswith("$")


def behind(start: str, level: str) -> str:
    """Only an empty text isn't a name."""
    return SLASH if start == PLAIN and level == "" else INSIDE


def may_end(rest: Levels) -> bool:
    return rest in ((), (HASH,))


def allows_end(rows: Rows) -> bool:
    ending = [deny for deny, rest in rows if may_end(rest)]
    return bool(ending) and not any(ending)


def after(rows: Rows, level: str) -> Rows:
    """What is left of the rows behind a level."""
    left: list[tuple[bool, Levels]] = []
    for deny, rest in rows:
        if rest == (HASH,):
            left.append((deny, rest))
        elif rest and rest[0] in (PLUS, level):
            left.append((deny, rest[1:]))
    return tuple(dict.fromkeys(left))


def named(rows: Rows) -> list[str]:
    return [rest[0] for _, rest in rows if rest and rest[0] not in (PLUS, HASH)]


def gains(start: str, others: Others, less: Rows, more: Rows,
          budget: int = BUDGET) -> Levels | None:
    """A name that the rows of `more` allow and those of `less` don't, or None where there is none.

    `others` are two levels that no row names; the second one begins with `$`.
    """
    if all(deny for deny, _ in more) or less == more:
        return None
    if start == INSIDE and allows_end(more) and not allows_end(less):
        return ()
    if budget == 0 or (start == INSIDE and all(rest == (HASH,) for _, rest in less + more)):
        return None
    other = others[1] if start == DOLLAR else others[0]
    for level in dict.fromkeys([other, *named(less), *named(more)]):
        if level != other and not fits_start(start, level):
            continue
        found = gains(behind(start, level), others, after(less, level), after(more, level),
                      budget - 1)
        if found is not None:
            return (level, *found)
    return None
