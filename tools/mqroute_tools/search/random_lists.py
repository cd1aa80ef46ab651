"""Random access lists that speak of a script's names and users."""
import random

from ..script.output import Command

USERS = ("u", "v")
MOST_LINES = 4
ACCESS_WORDS = ("read ", "write ", "readwrite ", "deny ", "")


def list_line(chance: random.Random, names: list[str]) -> str:
    name = chance.choice(names)
    keyword = chance.choice(["topic", "topic", "pattern"])
    if keyword == "pattern" and chance.random() < 0.5:
        levels = name.split("/")
        levels[chance.randrange(len(levels))] = chance.choice(["%c", "%c", "%u"])
        name = "/".join(levels) if "#" not in levels[:-1] else name
    return f"{keyword} {chance.choice(ACCESS_WORDS)}{name}\n"


def random_list(chance: random.Random, names: list[str]) -> Command:
    """One that mostly allows something: what nobody may do shows nothing."""
    lines = ["pattern readwrite #\n"] if chance.random() < 0.4 else []
    lines += [list_line(chance, names) for _ in range(chance.randint(1, MOST_LINES))]
    for user in USERS:
        if chance.random() < 0.3:
            lines.append(f"user {user}\n")
            lines += [list_line(chance, names) for _ in range(chance.randint(1, 2))]
    return {"do": "acl", "text": "".join(lines)}
