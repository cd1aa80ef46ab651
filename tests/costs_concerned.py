"""Scripts of commands that concern many things, and of things that are kept (costs.py)."""
from typing import Callable, NamedTuple

from costs_scripts import FOREVER, away, line, publish, retain, subscribe

LONG = "x" * 10_000


def receivers(n, topic="1", **fields):
    """Clients that subscribe to one filter, and a publish to them."""
    before = [part for i in range(n) for part in
              (line("connect", f"client-{i}"), subscribe("site/+", f"client-{i}", qos=1))]
    return before, publish(f"site/{topic}", qos=1, **fields)


def colleagues(n, users=1, lines=1_000, more=""):
    """Clients of users in turn, of whose many lines the last lets them read."""
    rows = "".join(f"topic read area/{i}\n" for i in range(lines))
    lists = (f"user anna-{i}\n{rows}topic readwrite site/+\n" for i in range(users))
    before = [line("acl", text=more + "".join(lists))]
    for i in range(n):
        before += [line("connect", f"client-{i}", user=f"anna-{i % users}"),
                   subscribe("site/+", f"client-{i}", qos=1)]
    return before, publish("site/1", qos=1)


def mixed_colleagues(n):
    """Those of more users than a publish asks about before it keeps what it finds."""
    return colleagues(n, users=12, lines=100)


def marked_colleagues(n):
    """The same, and a pattern of another topic that asks for client ids."""
    return colleagues(n, users=12, lines=100, more="pattern read area/%c\n")


def shared(n):
    """The members of one group, clients of one user of some lines."""
    rows = "".join(f"topic read area/{i}\n" for i in range(100))
    before = [line("acl", text=f"user anna\n{rows}topic readwrite site/+\n")]
    for i in range(n):
        before += [line("connect", f"client-{i}", user="anna"),
                   subscribe("$share/crew/site/1", f"client-{i}")]
    return before, publish("site/1")


def sleepers(n, topic="1", **fields):
    """Clients that subscribe to one filter, and are away."""
    before = [line("connect", "client-0")]
    for i in range(n):
        before += away(f"away-{i}", FOREVER, subscribe("site/+", f"away-{i}", qos=1))
    return before, publish(f"site/{topic}", qos=1, **fields)


def served_groups(n, topic="1", **fields):
    before = [line("connect", "client-0"),
              *(subscribe(f"$share/crew-{i}/site/+", qos=1) for i in range(n))]
    return before, publish(f"site/{topic}", qos=1, **fields)


def members(n):
    """The members of one group."""
    before = [part for i in range(n) for part in
              (line("connect", f"client-{i}"), subscribe("$share/crew/site/1", f"client-{i}"))]
    return before, publish("site/1")


def matching_filters(n):
    """Filters of one client that all match one topic, each with an identifier."""
    levels = n.bit_length()
    filters = ("/".join("+" if number >> level & 1 else "a" for level in range(levels))
               for number in range(n))
    before = [line("connect", "client-0"),
              *(subscribe(filter, id=number + 1) for number, filter in enumerate(filters))]
    return before, publish("/".join("a" * levels))


def retained(n, topic="", **fields):
    before = [line("connect", "client-0"),
              *(retain(f"site/{i}{topic}", **fields) for i in range(n))]
    return before, subscribe("#")


def waiting(n, topic="1", **fields):
    before = [line("connect", "client-0"),
              *away("back", FOREVER, subscribe("site/+", "back", qos=1)),
              *(publish(f"site/{topic}", qos=1, **fields) for i in range(n))]
    return before, line("connect", "back", clean=False, session_expiry=FOREVER)


def rows(n):
    text = "".join(f"topic read area/{i}/+\n" for i in range(n))
    return [line("acl", text="topic read #\n")], line("acl", text=text)


def own_subscriptions(n):
    """The disconnect of a client ends so many subscriptions."""
    before = [line("connect", "client-0"),
              *(subscribe(f"site/{i}", qos=1) for i in range(n // 2)),
              *(subscribe(f"$share/crew/site/{i}", qos=1) for i in range(n - n // 2))]
    return before, line("disconnect", "client-0")


def ends(n):
    """An advance ends so many sessions, each with a subscription, and so many messages."""
    before = [line("connect", "client-0")]
    for i in range(n):
        before += away(f"away-{i}", 1, subscribe(f"site/{i}", f"away-{i}", qos=1))
        before.append(retain(f"kept/{i}", expiry=1))
    return before, line("advance", seconds=1)


def each(n):
    return n


def one(n):
    return 1


def none(n):
    return 0


class Concern(NamedTuple):
    """A command behind the things that it concerns: how many copies answer it, and what it may take
    for each thing, some twice of what it takes: instructions, among `stepped` things and among
    twice as many; and other kinds of counts. `rules` are those of the access list.

    Where there may be a look at each thing before, there are so many that three instructions for
    each look are too much, or where copies are printed ten."""
    name: str
    script: Callable[..., tuple[list[bytes], bytes]]
    copies: Callable[[int], int]
    stepped: int
    instructions: int
    bounds: dict[str, float]
    rules: str = "own"


def by_both(name, *more):
    """The same by either set of rules."""
    return [Concern(name, *more), Concern(f"{name}, by mosquitto's rules", *more, "mosquitto")]


# At one time the copies are held, and the answer's text with as much room again: a list that is
# full gets twice the room. Copies of one publish share their text, and so do those that one client
# is sent: to print each of them whole takes 1,100 instructions more.
CONCERNS = [
    Concern("a publish to clients", receivers, each, 200, 1_800, {"room": 400}),
    *by_both("a publish to clients of a user of 1,001 lines", colleagues, each, 50, 6_000, {}),
    *by_both("a publish to clients of 12 users of 101 lines in turn", mixed_colleagues, each, 50,
             6_000, {}),
    Concern("the same, and a pattern of another topic has %c", marked_colleagues, each, 50,
            6_000, {}),
    Concern("a publish that waits for clients", sleepers, none, 100, 2_500,
            {"room": 600, "held": 250}),
    Concern("a publish to groups", served_groups, each, 50, 9_000, {"room": 450}),
    Concern("a publish to members of a group", members, one, 1_000, 40, {"room": 10}),
    *by_both("a publish to members of a group, of a user of 101 lines", shared, one, 1_000, 40, {}),
    Concern("a publish that filters match", matching_filters, one, 128, 2_000, {"room": 100}),
    Concern("a subscribe that is sent retained messages", retained, each, 200, 1_500,
            {"room": 600}),
    Concern("a connect that is sent waiting copies", waiting, each, 200, 2_200, {"room": 400}),
    Concern("an access list of rows", rows, none, 100, 2_500, {"room": 450, "held": 250}),
    Concern("a disconnect that ends subscriptions", own_subscriptions, none, 100, 4_500,
            {"blocks": 0}),
    Concern("an advance that ends sessions and messages", ends, none, 50, 16_000, {"blocks": 0}),
]

# How many blocks of the length of a long text each copy may take. The text that is printed is one.
# Halves are for what happens at times.
LONG_TEXTS = [("payload", "a publish to clients", receivers, each, 1.5),
              ("payload", "a publish to groups", served_groups, each, 1.5),
              ("payload", "a publish that waits for clients", sleepers, none, 0.5),
              ("payload", "a subscribe that is sent retained messages", retained, each, 1.5),
              ("payload", "a connect that is sent waiting copies", waiting, each, 1.5),
              ("topic", "a publish to clients", receivers, each, 1.5),
              ("topic", "a publish to groups", served_groups, each, 1.5),
              ("topic", "a publish that waits for clients", sleepers, none, 0.5),
              ("topic", "a connect that is sent waiting copies", waiting, each, 1.5),
              ("topic", "a subscribe that is sent retained messages", retained, each, 1.5)]

# So many things as no other test has at once.
LARGE = {receivers: 20_000, colleagues: 20_000, mixed_colleagues: 20_000,
         marked_colleagues: 20_000, sleepers: 20_000, served_groups: 20_000, members: 20_000,
         shared: 20_000,
         matching_filters: 16_384, retained: 100_000, waiting: 100_000, rows: 40_000,
         own_subscriptions: 20_000, ends: 20_000}

# How many bytes each thing takes that is kept, some twice of what it takes: with the tables that it
# stands in, which double at times, and two levels of the tree of its own.
KEPT = {"sessions connected": 500, "sessions away": 600, "clients that came back": 700,
        "subscriptions": 2_500, "groups": 5_000, "members of a group that are away": 1_300,
        "retained messages": 700, "waiting copies": 500, "users of the access list": 6_500}

# How many bytes stay of each thing that is gone: room in the index of ends, and no id.
LEFT = {"clients that are gone": 250}
