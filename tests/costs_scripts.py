"""Scripts whose costs are counted (costs.py): commands, and things that they have nothing to do
with."""
import json
from typing import Callable, NamedTuple

FOREVER = 4_294_967_295
LATER = 1_000_000  # Seconds after which nothing ends that a command has nothing to do with.
TIMES = 3  # Each command is given so many times, each time for another client, filter or topic.


def line(do, client=None, **fields):
    named = {} if client is None else {"client": client}
    return json.dumps({"do": do, **named, **fields}, separators=(",", ":")).encode() + b"\n"


def publish(topic, client="client-0", **fields):
    return line("publish", client, topic=topic, **{"payload": "on", **fields})


def retain(topic, **fields):
    return publish(topic, retain=True, **fields)


def subscribe(filter, client="client-0", **fields):
    return line("subscribe", client, filter=filter, **fields)


def away(client, expiry=FOREVER, *lines):
    """A client that does this, and leaves a session."""
    return [line("connect", client, session_expiry=expiry), *lines, line("disconnect", client)]


def sessions_connected(n):
    return [line("connect", f"other-{i}") for i in range(n)]


def sessions_away(n):
    return [part for i in range(n) for part in away(f"away-{i}", LATER + i)]


def clients_that_came_back(n):
    """Their sessions had ends, and have none any more."""
    return [part for i in range(n) for part in
            (*away(f"again-{i}", LATER + i),
             line("connect", f"again-{i}", clean=False, session_expiry=LATER))]


def clients_that_are_gone(n):
    """They were away at once, and came back for good. Their ids are long."""
    ids = [f"{i}-{'x' * 300}" for i in range(n)]
    return [*(part for client in ids for part in away(client, LATER)),
            *(part for client in ids for part in
              (line("connect", client), line("disconnect", client)))]


def subscriptions(n):
    return [subscribe(f"other/{i % 100}/{i}/state") for i in range(n)]


def groups(n):
    return [subscribe(f"$share/crew/other/{i}") for i in range(n)]


def members_away(n):
    """Of one group, which no command serves."""
    return [part for i in range(n) for part in
            away(f"member-{i}", LATER + i, subscribe("$share/crew/idle", f"member-{i}"))]


def retained_messages(n):
    return [retain(f"kept/{i // 10}/{i % 10}", expiry=LATER + i) for i in range(n)]


def waiting_copies(n):
    return [*away("sleeper", FOREVER, subscribe("sleep", "sleeper", qos=1)),
            *(publish("sleep", payload=f"v={i}", qos=1) for i in range(n))]


def siblings(n):
    """Levels beside those on the way of a command, at each of eight places so many of all."""
    places = [lambda i: subscribe(f"other-{i}/state"), lambda i: subscribe(f"new/other-{i}/state"),
              lambda i: subscribe(f"leave/other-{i}"),
              lambda i: subscribe(f"site/other-{i}/temperature"),
              lambda i: retain(f"other-{i}/state"), lambda i: retain(f"area/other-{i}/0"),
              lambda i: retain(f"old/other-{i}"), lambda i: retain(f"gone/other-{i}")]
    return [place(i) for place in places for i in range(n // 4)]


def users_of_a_list(n):
    """These stand in the access list."""
    return []


THINGS = {"sessions connected": sessions_connected, "sessions away": sessions_away,
          "clients that came back": clients_that_came_back,
          "clients that are gone": clients_that_are_gone, "subscriptions": subscriptions,
          "groups": groups, "members of a group that are away": members_away,
          "retained messages": retained_messages, "waiting copies": waiting_copies,
          "siblings": siblings,
          "users of the access list": users_of_a_list}


def access_list(users):
    """All may do all, but for a guest; with rows of others."""
    rows = "".join(f"topic readwrite area/{i}/+\n" for i in range(9))
    return ("topic readwrite #\nuser guest\ntopic read #\n"
            + "".join(f"user user-{i}\ntopic read #\n{rows}" for i in range(users)))


def prepared():
    """What the commands concern."""
    yield line("connect", "guest", user="guest")
    for i in range(5):
        yield line("connect", f"client-{i}")
        yield subscribe("site/+/temperature", f"client-{i}", qos=1)
    for i in range(3):
        yield subscribe("$share/crew/work", f"client-{i}", qos=1)
    yield from away("absent", FOREVER, subscribe("note", "absent", qos=1))
    for i in range(TIMES):
        yield from prepared_once(i)


def prepared_once(i):
    yield from away(f"back-{i}", FOREVER, subscribe(f"call/{i}", f"back-{i}", qos=1))
    yield publish(f"call/{i}", qos=1)
    yield from away(f"ends-{i}", i + 1)
    for client in ("over", "goes"):
        yield line("connect", f"{client}-{i}")
        yield subscribe(f"{client}/{i}", f"{client}-{i}")
    yield line("connect", f"stays-{i}", session_expiry=LATER)
    yield from (retain(f"area/{i}/{place}") for place in range(10))
    yield from (retain(f"{kind}/{i}") for kind in ("old", "gone"))
    yield retain(f"ends/{i}", expiry=i + 1)
    yield subscribe(f"leave/{i}")
    yield subscribe(f"$share/crew/leave/{i}")


def options(kinds, n, times=TIMES):
    """Limits: of messages so many that some more can be retained, one each time, and no others
    then."""
    retained = 13 * TIMES + sum(n for kind in ("retained messages", "siblings") if kind in kinds)
    return ["--max-retained", str(retained + times), "--max-queued", str(n + 10)]


class Command(NamedTuple):
    """What it does in words, its line for each turn, and what answers it: the number of copies, and
    the reason or the name of the refusal."""
    name: str
    line: Callable[[int], bytes]
    copies: int
    closing: int | str


COMMANDS = [
    Command("a connect", lambda i: line("connect", f"new-{i}"), 0, 0),
    Command("a connect that resumes, and is sent one copy",
            lambda i: line("connect", f"back-{i}", clean=False, session_expiry=FOREVER), 1, 0),
    Command("a connect in place of another", lambda i: line("connect", f"over-{i}"), 0, 0),
    Command("a disconnect, and the session stays", lambda i: line("disconnect", f"stays-{i}"),
            0, 0),
    Command("a disconnect, and the session ends", lambda i: line("disconnect", f"goes-{i}"), 0, 0),
    Command("a subscribe", lambda i: subscribe(f"new/{i}/state", qos=1), 0, 1),
    Command("a subscribe that is sent 10 retained messages", lambda i: subscribe(f"area/{i}/+"),
            10, 0),
    Command("a shared subscribe", lambda i: subscribe(f"$share/crew/new/{i}"), 0, 0),
    Command("an unsubscribe", lambda i: line("unsubscribe", "client-0", filter=f"leave/{i}"), 0, 0),
    Command("a shared unsubscribe",
            lambda i: line("unsubscribe", "client-0", filter=f"$share/crew/leave/{i}"), 0, 0),
    Command("an unsubscribe from nothing",
            lambda i: line("unsubscribe", "client-0", filter=f"nothing/{i}"), 0, 17),
    Command("a publish that nobody gets", lambda i: publish(f"nobody/{i}"), 0, 16),
    Command("a publish to 5", lambda i: publish(f"site/{i}/temperature", qos=1), 5, 0),
    Command("a publish to a group", lambda i: publish("work", qos=1), 1, 0),
    Command("a publish that waits for one", lambda i: publish("note", qos=1), 0, 0),
    Command("a retained publish", lambda i: retain(f"fresh/{i}"), 0, 16),
    Command("a retained publish in place of another", lambda i: retain(f"old/{i}"), 0, 16),
    Command("a retained publish past the limit", lambda i: retain(f"more/{i}"), 0, "RetainedFull"),
    Command("a retained publish of nothing", lambda i: retain(f"gone/{i}", payload=""), 0, 16),
    Command("an advance that ends nothing", lambda i: line("advance", seconds=0), 0, 0),
    Command("an advance that ends a session and a message",
            lambda i: line("advance", seconds=1), 0, 0),
    Command("a stat", lambda i: line("stat"), 0, 0),
    Command("a line that is no JSON", lambda i: b"[\n", 0, "BadJson"),
    Command("a connect with an empty id", lambda i: line("connect", ""), 0, "ClientId"),
    Command("a disconnect of nobody", lambda i: line("disconnect", "no"), 0, "NotConnected"),
    Command("a subscribe of nobody", lambda i: subscribe("a", "no"), 0, "NotConnected"),
    Command("a subscribe to no filter", lambda i: subscribe("a/#/b"), 0, "TopicFilter"),
    Command("an unsubscribe of nobody", lambda i: line("unsubscribe", "no", filter="a"), 0,
            "NotConnected"),
    Command("a publish of nobody", lambda i: publish("a", "no"), 0, "NotConnected"),
    Command("a publish to no topic", lambda i: publish("a/+"), 0, "TopicName"),
    Command("a publish that isn't allowed", lambda i: publish(f"site/{i}/temperature", "guest"), 0,
            "NotAuthorized"),
    Command("an advance too far", lambda i: line("advance", seconds=10**12), 0, "ClockTooFar"),
    Command("a faulty access list", lambda i: line("acl", text="topic read a\nallow b\n"), 0,
            "AclLine"),
    # The first of them drops the many rows that were in force.
    Command("an access list", lambda i: line("acl", text="topic readwrite #\n"), 0, 0),
]
NAMES = [command.name for command in COMMANDS]

# Commands that take no memory, and each beside one of its kind that is refused, whose line and
# answer take as much.
WITHOUT_MEMORY = [
    ("a disconnect, and the session stays", "a disconnect of nobody"),
    ("a disconnect, and the session ends", "a disconnect of nobody"),
    ("an unsubscribe", "an unsubscribe of nobody"),
    ("a shared unsubscribe", "an unsubscribe of nobody"),
    ("an unsubscribe from nothing", "an unsubscribe of nobody"),
    ("an advance that ends nothing", "an advance too far"),
    ("an advance that ends a session and a message", "an advance too far"),
]
