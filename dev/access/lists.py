"""Groups of clients, and their lists."""
from dataclasses import dataclass

CLIENTS, USERS, TOPICS = 12, 4, 20  # of a group

# Levels; of what ids and user names are made.
WORDS = ("a", "a", "b", "b", "x", "x", "", "A", "c1", "u1", "a b", "a  b", "é", "$x", "-", "%",
         "é\u00a0", "read", "deny")
PIECES = ("a", "b", "c1", "u1", "x", "é", " ", "-", "/", "$", "%c", "%u", "%")
PLAIN = ("a", "b", "c1", "c2", "u1", "u2", "x", "A", "a b", "a c", "é", "dev-1")
ODD = ("a/b", "/a", "a/", "a//b", "/", "$x", "$x/a", "$", "%c", "%u", "%u", "%u/%c", "x%c", "%u%u",
       "%", " a", "a ", "a b c", "+", "a+", "#", "b/#", "+/a", "$SYS", "$SYSTEM", "$share", "$S",
       "YS")
# First levels of which mosquitto refuses much by itself.
OWN = ("$SYS", "$SYS", "$SYSTEM", "$share", "$sharex", "$SYS%c", "$S%u", "%c", "%u")
# What stands in place of a level, and filters.
MARKS = ("%c", "%u", "%c", "%u", "x%c", "%ux", "a-%c-b", "%c%u", "%u%c", "%c-%c", "$%c", "$x%u",
         "%c%", "%%u", "% c")
WIDE = ("#", "#", "#", "+/#", "+/+", "+", "a/#", "/#", "+/+/#", "$x/#", "$x", "$x/+", "%c/#",
        "%u/#", "+/%c/#", "+/%u", "%c", "%u", "%u/%c/#", "$SYS/#", "$SYS/+", "$share/#")
ACCESSES = ("read ", "write ", "readwrite ", "readwrite ", "", "deny ", "deny ")
BLANK = ("", "# topic #", "#", "  ", "\r", " \t")
FAULTS = ("topic", "pattern ", "user", "user  ", "topic a/#/b", "topic read a+/b", "topic rw a/b",
          "pattern deny b#", "Topic a", "topic\ta", "\ttopic a", "user\ta", " # a", "\ufefftopic a",
          "topic read a b#", "pattern  Deny %c", "pattern read\t%c x", "topics a", "users a",
          "topic read\t a", "pattern deny\t %c")


@dataclass(frozen=True)
class Client:
    name: str
    user: str | None


@dataclass
class Group:
    clients: list[Client]
    shapes: list[str]  # topics with marks
    topics: list[str]


def name(chance):
    """A client id or a user name."""
    kind = chance.random()
    if kind < 0.7:
        return chance.choice(PLAIN if kind < 0.4 else ODD)
    return "".join(chance.choice(PIECES) for _ in range(chance.randint(1, 4)))


def shape(chance):
    levels = [chance.choice(WORDS) for _ in range(chance.choice((1, 2, 2, 3, 3, 4)))]
    for place in range(len(levels)):
        if chance.random() < 0.4:
            levels[place] = chance.choice(MARKS)
    kind = chance.random()
    if kind < 0.15:
        levels[0] = chance.choice(OWN)
    elif kind < 0.2:
        levels = ["$SYS", "broker", "connection", levels[0], "state"]
    return "/".join(levels)


def filled(text, client):
    """The texts in the places of the marks, from left to right."""
    before, sign, rest = text.partition("%")
    if not sign:
        return before
    if rest[:1] in ("c", "u"):
        return before + ((client.user or "") if rest[0] == "u" else client.name) + filled(
            rest[1:], client)
    return before + sign + filled(rest, client)


def is_asked(topic):
    return bool(topic) and not set(topic) & set("+#")


def is_kept(topic):
    """Whether mosquitto lets no client write it, whatever its list says."""
    levels = topic.split("/")
    is_state = len(levels) == 5 and (*levels[:3], levels[4]) == (
        "$SYS", "broker", "connection", "state")
    return topic.startswith("$share") or topic.startswith("$SYS") and not is_state


def random_group(chance):
    names = set()
    while len(names) < CLIENTS:
        names.add(name(chance))
    users = [None, None, *(name(chance) for _ in range(USERS)), chance.choice(("", None))]
    clients = [Client(one, chance.choice(users)) for one in sorted(names)]
    shapes, topics = [shape(chance)], set()
    while len(topics) < TOPICS:
        if chance.random() < 0.4:
            shapes.append(shape(chance))
        made = chance.choice(shapes)
        if chance.random() < 0.9:
            made = filled(made, chance.choice(clients))
        if is_asked(made):
            topics.add(made)
    return Group(clients, shapes, sorted(topics))


def widened(chance, text):
    """A filter that matches no less."""
    levels = ["+" if chance.random() < 0.15 else level for level in text.split("/")]
    if chance.random() < 0.25:
        levels[chance.randint(0, len(levels)):] = ["#"]
    return "/".join(levels)


def filter_of(chance, group, keyword, access):
    """Lines that deny are seldom wide: where nothing is allowed nothing is seen."""
    if chance.random() < (0.08 if access == "deny " else 0.4):
        return chance.choice(WIDE)
    if chance.random() < 0.1:
        return widened(chance, shape(chance))
    of_topics = chance.random() < (0.85 if keyword == "topic" else 0.25)
    return widened(chance, chance.choice(group.topics if of_topics else group.shapes))


def spaced(chance, keyword, access, rest):
    """A line, with more blanks now and then."""
    if chance.random() < 0.8:
        return f"{keyword} {access}{rest}"
    before, between = chance.choice(("", " ", "   ")), chance.choice((" ", "  "))
    after = access.replace(" ", chance.choice((" ", "  ", " \t", " \v", " \f\r ")))
    between += "\t" * (keyword == "user" and chance.random() < 0.3)
    return f"{before}{keyword}{between}{after}{rest}" + chance.choice(
        ("", " ", "\t", " \t ", "\r", "\v\f"))


def line(chance, group):
    kind = chance.random()
    if kind < 0.05:
        return chance.choice(BLANK)
    if kind < 0.06:  # a long line: 1,024 bytes are read at once
        return "#" + " " * chance.randint(1000, 1040) + "topic #"
    if kind < 0.16:
        user = (chance.choice(group.clients).user or "").strip()
        return spaced(chance, "user", "", user or "nobody")
    keyword = chance.choice(("topic", "topic", "pattern"))
    access = chance.choice(ACCESSES)
    text = filter_of(chance, group, keyword, access)
    return spaced(chance, keyword, access or "readwrite " * (" " in text), text)


def random_list(chance, group):
    lines = [line(chance, group) for _ in range(chance.randint(1, chance.choice((4, 8, 12, 30))))]
    if chance.random() < 0.04:
        lines.insert(chance.randint(0, len(lines)), chance.choice(FAULTS))
    return chance.choice(("\n", "\n", "\n", "\r\n")).join(lines) + chance.choice(("\n", "\n", ""))


def allowing(topics):
    """A list under which a client without a user name may write them all."""
    firsts = [topic.split("/")[0] for topic in topics if topic.startswith("$")]
    return "".join(f"topic readwrite {first}\n" for first in ["#", *(f"{one}/#" for one in firsts)])
