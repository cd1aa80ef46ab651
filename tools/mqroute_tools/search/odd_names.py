"""Names that mean something in access lists, and lists whose marks stand within levels: what
mosquitto's rules are tried with."""
import random
from typing import NamedTuple

from ..script.output import Command
from .random_lists import ACCESS_WORDS

CLIENTS = ("a", "b", "c", "ab", "a/b", "a//b", "/a", "a/", "$a", "$b", "$a/b", "$x", "a+", "#a",
           "+/a", "%u", "%ca")
USERS = ("u", "v", "a", "uv", "u/v", "/u", "$u", "$v/x", "u+", "#u", "%c", "u%u", "")
# Of these patterns are made, and topics with a client's id and user name in the marks' places.
MADE_OF = ("%c", "%u", "%c/x", "%u/x", "x/%c", "x/%u/y", "x%c", "x%cy/z", "%cx", "%u%c", "%c%c/%u",
           "x/%c%u/%c", "%c/%u", "/%c", "$%c/x", "$x/%u", "$x%c", "x", "x/y", "$x/y", "$%u", "/x")
MOST_TOPICS, MOST_LINES = 6, 5
# Before a line, behind its first word, behind its access, and at its end.
BLANKS = (("", "  "), (" ", "  "), (" ", "  ", " \t"), ("", " ", "\t", " \t ", "\r"))


class OddNames(NamedTuple):
    clients: tuple[str, ...]
    users: dict[str, str]  # by client
    topics: list[str]

    @classmethod
    def chosen(cls, chance: random.Random) -> "OddNames":
        clients = tuple(chance.sample(CLIENTS, 4))
        users = {client: chance.choice(USERS) for client in clients if chance.random() < 0.7}
        topics: list[str] = []
        while len(topics) < MOST_TOPICS:
            client = chance.choice(clients)
            topic = filled(chance.choice(MADE_OF), client, users.get(client, ""))
            if topic and not set(topic) & set("+#") and topic not in topics:
                topics.append(topic)
        return cls(clients, users, topics)


def filled(pattern: str, client: str, user: str) -> str:
    """With a client's id and user name in the places of its marks, from left to right."""
    before, sign, rest = pattern.partition("%")
    if not sign:
        return before
    return before + {"c": client, "u": user}[rest[0]] + filled(rest[1:], client, user)


def widened(chance: random.Random, name: str) -> str:
    """A filter that matches no less."""
    levels = ["+" if chance.random() < 0.15 else level for level in name.split("/")]
    if chance.random() < 0.25:
        levels[chance.randint(0, len(levels)):] = ["#"]
    return "/".join(levels)


def line(chance: random.Random, names: OddNames, keyword: str) -> str:
    of_topic = keyword == "topic" and chance.random() < 0.85
    name = chance.choice(names.topics if of_topic else MADE_OF)
    return spaced(chance, keyword, chance.choice((*ACCESS_WORDS, "deny ")) + widened(chance, name))


def spaced(chance: random.Random, keyword: str, rest: str) -> str:
    """A line, with more blanks now and then."""
    if chance.random() < 0.8:
        return f"{keyword} {rest}\n"
    before, between, after, behind = (chance.choice(blanks) for blanks in BLANKS)
    return f"{before}{keyword}{between}{rest.replace(' ', after)}{behind}\n"


def odd_list(chance: random.Random, names: OddNames) -> Command:
    """Lines of both kinds that grant and deny, of users too."""
    lines = [line(chance, names, chance.choice(["topic", "pattern", "pattern"]))
             for _ in range(chance.randint(1, MOST_LINES))]
    lines += ["pattern readwrite #\n"] if chance.random() < 0.25 else []
    chance.shuffle(lines)
    for user in sorted({user for user in names.users.values() if user}):
        if chance.random() < 0.5:
            lines.append(spaced(chance, "user", user))
            lines += [line(chance, names, chance.choice(["topic", "topic", "pattern"]))
                      for _ in range(chance.randint(1, 3))]
    return {"do": "acl", "text": "".join(lines)}


def odd_script(chance: random.Random, lists: int, qos: int) -> list[Command]:
    """Under one list after another each client publishes on each topic, to all of them."""
    names = OddNames.chosen(chance)
    script: list[Command] = []
    for client in names.clients:
        user = {"user": names.users[client]} if client in names.users else {}
        script.append({"do": "connect", "client": client, **user})
        filters = ["#", *(topic for topic in names.topics if topic.startswith("$"))]
        script += [{"do": "subscribe", "client": client, "filter": name} for name in filters]
    number = 0
    for _ in range(lists):
        script.append(odd_list(chance, names))
        for topic in names.topics:
            for client in names.clients:
                number += 1
                script.append({"do": "publish", "client": client, "topic": topic,
                               "payload": str(number), **({"qos": qos} if qos else {})})
    return script
