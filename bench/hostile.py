#!/usr/bin/env python3
"""Scripts that are made to be hard, within what mqroute takes, and that of a big site. curves.py
measures each at two sizes; hostile.py KIND N writes one on standard output, `hostile.py list N` the
access list of `deep_rows`, and hostile.py alone lists the kinds."""
import sys
from functools import partial

from commands import FOREVER, line

DEEP = 200  # levels
LONG = 65_535  # bytes of a text
KEPT = 86_400  # seconds
VALUES = ("temp", "hum", "volt", "state", "fw", "rssi", "mode", "err", "up", "loc")


def connected(client, **fields):
    """A client, and one of its subscriptions."""
    subscription = {name: fields.pop(name) for name in ("filter", "qos", "id") if name in fields}
    yield line("connect", client, **fields)
    yield line("subscribe", client, **subscription)


def deep_topics(n):
    """n retained topics of 200 levels, apart from the first level on"""
    yield line("connect", "p")
    for i in range(n):
        yield line("publish", "p", topic=f"{i}" + "/a" * (DEEP - 1), retain=True, payload="x")


def deep_searches(n):
    """the same, and 20 subscribes to +/+/.. of 200 levels that find nothing"""
    yield from deep_topics(n)
    for i in range(20):
        yield line("subscribe", "p", filter="+/" * (DEEP - 1) + f"x{i}")


def deep_filters(n):
    """n filters of 200 levels, apart from the first level on"""
    yield line("connect", "p")
    for i in range(n):
        yield line("subscribe", "p", filter=f"{i}" + "/+" * (DEEP - 1))


def branches(number):
    """Seventeen levels, each + or a word, another for each number below 131,072."""
    return "/".join("+" if number >> level & 1 else "l" for level in range(17))


def combs(n):
    """n filters of 17 levels, + or a word, that fail at the end, and 20 publishes"""
    yield line("connect", "p")
    for i in range(n):
        yield line("subscribe", "p", filter=branches(i) + "/end")
    for i in range(20):
        yield line("publish", "p", topic="l/" * 17 + "other")


def overlapping_ids(n):
    """n filters with identifiers of one client that all match, and 3 publishes"""
    yield line("connect", "p")
    for i in range(n):
        yield line("subscribe", "p", filter=branches(i), id=268_435_455 - i)
    for _ in range(3):
        yield line("publish", "p", topic=branches(0))


def group(n, **fields):
    """The client that publishes, and n members of a group."""
    yield line("connect", "p")
    for i in range(n):
        yield from connected(f"m{i:07}", filter="$share/g/t", qos=1, **fields)


def group_leaves(n):
    """a group of n members that end at one advance, in the order in which they joined"""
    yield line("connect", "p")
    for i in range(n):
        yield from connected(f"m{i:07}", filter="$share/g/t", qos=1, session_expiry=5 + i)
    for i in range(n):
        yield line("disconnect", f"m{i:07}")
    yield b'{"do":"advance","seconds":%d}\n' % (n + 10)


def group_ends(n):
    """the same with one deadline for all"""
    yield from group(n, session_expiry=5)
    for i in range(n):
        yield line("disconnect", f"m{i:07}")
    yield b'{"do":"advance","seconds":6}\n'


def group_connected(n):
    """a group of n members that are connected, and 200 publishes"""
    yield from group(n)
    for _ in range(200):
        yield line("publish", "p", topic="t", qos=1)


def group_away(n):
    """a group of n members, all away but one, and 20 publishes"""
    yield from group(n, session_expiry=FOREVER)
    for i in range(n):
        yield line("disconnect", f"m{i:07}")
    yield line("subscribe", "p", filter="$share/g/t", qos=1)
    for _ in range(20):
        yield line("publish", "p", topic="t", qos=1)


def large_message(n):
    """one publish of 1,000,000 bytes to n clients"""
    yield line("connect", "p")
    for i in range(n):
        yield from connected(f"c{i}", filter="t")
    yield line("publish", "p", topic="t", payload="x" * 1_000_000)


def queues(n):
    """n clients away, for each of which 1,000 copies wait, and one that comes back"""
    yield line("connect", "p")
    for i in range(n):
        yield from connected(f"c{i}", filter="t", qos=1, session_expiry=FOREVER)
        yield line("disconnect", f"c{i}")
    for i in range(1000):
        yield line("publish", "p", topic="t", qos=1, payload=f"v={i}")
    yield line("connect", "c0", clean=False, session_expiry=FOREVER)


def long_names(n):
    """n clients with ids of 65,535 bytes, apart at the end, one filter, and 3 publishes"""
    clients = ["a" * (LONG - 8) + f"{i:08}" for i in range(n)]
    for client in clients:
        yield from connected(client, filter="t")
    for _ in range(3):
        yield line("publish", clients[-1], topic="t")


def long_topics(n):
    """n retained topics of 65,535 bytes, apart at the end"""
    yield line("connect", "p")
    for i in range(n):
        yield line("publish", "p", topic="a" * (LONG - 8) + f"{i:08}", retain=True, payload="x")


def unknown_members(n):
    """20 lines that are no command: objects of n members that none has"""
    for _ in range(20):
        yield ("{" + ",".join(f'"k{i}":{i}' for i in range(n)) + "}\n").encode()


def nested_arrays(n):
    """n lines of 1 MB that are no command: arrays in an array"""
    for _ in range(n):
        yield b"[" + b",".join([b"[]"] * 349_000) + b"]\n"


def deep_rows(n):
    """5 subscribers and 20 publishes under n lines that deny, of 200 levels, and fail at the end"""
    for i in range(5):
        yield from connected(f"c{i}", user="u", filter="#")
    for _ in range(20):
        yield line("publish", "c0", topic="a/" * (DEEP - 1) + "a")


def deep_list(n):
    """The access list of deep_rows."""
    yield b"user u\ntopic readwrite #\n"
    for i in range(n):
        yield f"topic deny {'+/' * (DEEP - 1)}x{i}\n".encode()


def stats(n):
    """n subscriptions, and n times stat"""
    yield line("connect", "p")
    for i in range(n):
        yield line("subscribe", "p", filter=f"a/{i}")
    for i in range(n):
        yield b'{"do":"stat"}\n'


def comings(n):
    """n clients that come and go ten times, with a deadline"""
    for _ in range(10):
        for i in range(n):
            yield line("connect", f"c{i}", clean=False, session_expiry=FOREVER - 1)
            yield line("disconnect", f"c{i}")


def second_subscribes(n):
    """n clients that subscribe to one filter twice, and then leave"""
    for i in range(n):
        yield from connected(f"c{i}", filter="t/+")
        yield line("subscribe", f"c{i}", filter="t/+")
    for i in range(n):
        yield line("disconnect", f"c{i}")


def device(i):
    """One of a site's: with its five subscriptions."""
    client, subscribe = f"dev-{i:07}", partial(line, "subscribe")
    yield line("connect", client, user=f"u{i // 1000}", session_expiry=KEPT)
    yield subscribe(client, filter=f"cmd/{client}/#", qos=1)
    yield subscribe(client, filter=f"config/{client}", qos=1)
    yield subscribe(client, filter=f"site/{i // 1000}/broadcast", qos=1)
    yield subscribe(client, filter=f"site/{i // 1000}/area/{i // 50}/+")
    yield subscribe(client, filter="all/broadcast")


def site(n):
    """a site of n devices with 5 subscriptions and 10 retained messages each; 1,000 publishes"""
    for i in range(n):
        yield from device(i)
    for i in range(n):
        for name in VALUES:
            yield line("publish", f"dev-{i:07}", topic=f"site/{i // 1000}/dev/dev-{i:07}/{name}",
                       payload=f'{{"v":{i},"u":"{name}"}}', qos=1, retain=True)
    for i in range(1000):
        j = i * 7919 % n
        yield line("publish", f"dev-{j:07}", topic=f"site/{j // 1000}/area/{j // 50}/alarm",
                   payload="x", qos=1)


# Each with the two sizes at which it is measured.
SCRIPTS = {
    deep_topics: (1_000, 4_000), deep_searches: (500, 2_000), deep_filters: (1_000, 4_000),
    combs: (8_192, 32_768), overlapping_ids: (4_096, 32_768), group_leaves: (4_000, 16_000),
    group_ends: (4_000, 16_000), group_connected: (4_000, 16_000), group_away: (4_000, 16_000),
    large_message: (30, 300), queues: (100, 1_000), long_names: (100, 500), long_topics: (50, 200),
    unknown_members: (15_000, 60_000), nested_arrays: (5, 20), deep_rows: (1_000, 4_000),
    stats: (1_000, 4_000), comings: (5_000, 20_000), second_subscribes: (5_000, 20_000),
    site: (20_000, 100_000)}
LISTS = {deep_rows: deep_list}


def main():
    kinds = {script.__name__: script for script in SCRIPTS}
    if len(sys.argv) < 3:
        print("\n".join(f"{name:16} {script.__doc__}" for name, script in kinds.items()))
        return
    written = (kinds | {"list": deep_list})[sys.argv[1]](int(sys.argv[2]))
    sys.stdout.buffer.writelines(written)


if __name__ == "__main__":
    main()
