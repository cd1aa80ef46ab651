"""By a password file it is known who other users are, and whom a list names by mistake."""
from collections.abc import Iterator
from difflib import get_close_matches

from ..common.messages import counted, named
from ..common.tables import shown
from .findings import Preview, Right
from .list_rows import users_of

MOST_NAMED = 8


def name_others(found: Preview, names: list[str], file: str) -> None:
    """Whom `other users` stands for; rights that then concern nobody are left out, and said."""
    known = {user for name in (found.current, found.proposed) for user in users_of(name)}
    others = [name for name in names if name not in known]
    before = len(found.granted) + len(found.taken)
    found.granted, found.taken = (
        [one for one in rights if is_of_somebody(one, others)]
        for rights in (found.granted, found.taken))
    number = before - len(found.granted) - len(found.taken)
    if number:
        found.said.append(f"{counted(number, 'rights', ',')} of other users left out: the lists "
                          f"name all {counted(len(names), 'users', ',')} of {named(file)}")
    found.said += mistaken(found, names, file)


def is_of_somebody(right: Right, others: list[str]) -> bool:
    right.others = others
    if not others:
        right.clients = [one for one in right.clients if not one.is_any_user()]
    return bool(right.clients)


def mistaken(found: Preview, names: list[str], file: str) -> Iterator[str]:
    """That a list names users who can't connect: of OLD those that NEW names too aren't
    said twice."""
    said: set[str] = set()
    for name in (found.proposed, found.current):
        absent = [user for user in users_of(name) if user not in names and user not in said]
        said.update(absent)
        if absent:
            more = len(absent) - MOST_NAMED
            yield (f"{named(name)} names {counted(len(absent), 'users', ',')} that {named(file)} "
                   f"doesn't have: {', '.join(guess(one, names) for one in absent[:MOST_NAMED])}"
                   f"{f' and {more:,} more' if more > 0 else ''}")


def guess(user: str, names: list[str]) -> str:
    """With the name that may be meant."""
    near = get_close_matches(user, names, 1)
    return f"{shown(user)} ({shown(near[0])}?)" if near else shown(user)
