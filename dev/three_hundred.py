#!/usr/bin/env python3
"""Writes tests/rows/three-hundred.*: a row with three hundred of everything at once, since the
other rows have a few.

Three hundred clients are members of one group; one client has three hundred filters that match one
topic, and a hundred and fifty have one filter; three hundred messages are retained, a third of them
for ever; the access lists have three hundred lines. The answers are those of dev/plain_router.py.
Run from the repository's top; with the argument --check it writes nothing and fails where the row
is not what it makes.
"""
import itertools
import json
import pathlib
import sys

from plain_router import output

ROW = pathlib.Path("tests/rows/three-hundred")
N = 300
TOPIC = "plant/hall/line/cell/robot/arm/joint"


def client(i):
    return f"c{i:03}"


def scattered(i, step=7):
    """Each of the numbers below N once, out of order."""
    return i * step % N


def line(do, **fields):
    return json.dumps({"do": do, **fields}, separators=(",", ":"))


def publish(topic, payload, **fields):
    return line("publish", client=client(0), topic=topic, payload=payload, **fields)


def overlapping():
    """Filters that match the topic: its levels or `+`, all of them, or some and a `#`."""
    levels = TOPIC.split("/")
    for count in range(len(levels), -1, -1):
        for kept in itertools.product((True, False), repeat=count):
            front = [level if keep else "+" for level, keep in zip(levels, kept)]
            if count == len(levels):
                yield "/".join(front)
            yield "/".join(front + ["#"])


FILTERS = list(overlapping())[:N]

# Clients with an odd number have a user name, and a line each by which they may read.
FIRST_LIST = "\n".join(
    ["topic readwrite job/#", "topic readwrite plant/#", "pattern read plant/#"]
    + [f"user u{i:03}\ntopic read job/#" for i in range(1, N, 2)])

# To clients without a user name jobs with an odd number are denied, though the last line but one
# grants all of them.
SECOND_LIST = "\n".join([f"topic {'deny' if i % 2 else 'read'} job/{i:03}" for i in range(N)]
                        + ["topic read job/#", "pattern read plant/#"])


def begin():
    yield line("acl", text=FIRST_LIST)
    for i in map(scattered, range(N)):
        user = {"user": f"u{i:03}"} if i % 2 else {}
        expiry = {"session_expiry": 100} if i % 5 == 0 else {}
        yield line("connect", client=client(i), **user, **expiry)
    for i in map(lambda i: scattered(i, 11), range(N)):
        yield line("subscribe", client=client(i), filter="$share/g/job/#", qos=i % 3, id=i + 1)
    for i in map(lambda i: scattered(i, 13), range(N)):
        yield line(
            "subscribe", client=client(0), filter=FILTERS[i], qos=i % 3, rap=i == 0, id=i % 250 + 1)
    for i in range(N // 2, N):
        yield line(
            "subscribe", client=client(i), filter="plant/+/line/#", qos=i % 3, rap=i % 7 == 0)
    yield line("stat")


# Each job goes to the next member, and the last one to the first member again. They come out of
# order.
def jobs():
    for i in map(lambda i: scattered(i, 17), range(N)):
        expiry = [{}, {"expiry": 50}, {"expiry": 100 + i}][i % 3]
        yield publish(f"job/{i:03}", f"{i}", qos=i % 3, retain=True, **expiry)
    yield publish("job/000", "again", qos=1, retain=True)
    yield line("stat")
    yield line("subscribe", client=client(1), filter="job/#", qos=1, id=7)
    yield line("unsubscribe", client=client(1), filter="job/#")


def all_at_once():
    yield publish(TOPIC, "on", qos=2, retain=True)
    for i in range(5, N, 5):
        yield line("disconnect", client=client(i))
    yield publish(TOPIC, "off", qos=2)
    yield publish(TOPIC, "soon over", qos=1, expiry=30)
    for i in range(4):
        yield publish("job/000", f"{i}")
    yield line("advance", seconds=50)
    yield line("stat")
    yield line("subscribe", client=client(4), filter="+/+", qos=2)
    yield line("connect", client=client(150), clean=False)
    yield line("connect", client=client(295), user="u295", clean=False, session_expiry=100)
    yield line("acl", text=FIRST_LIST + "\nallow a")
    yield line("acl", text=SECOND_LIST)
    yield publish("job/000", "may not be written")
    yield line("subscribe", client=client(2), filter="job/#")
    yield line("subscribe", client=client(3), filter="job/#")
    yield line("advance", seconds=50)
    yield line("stat")
    yield line("acl")


def end():
    for i in range(0, N, 12):
        yield line("unsubscribe", client=client(0), filter=FILTERS[i])
        yield line("unsubscribe", client=client(i + 1), filter="$share/g/job/#")
    yield publish(TOPIC, "less", qos=1)
    yield publish("job/001", "", retain=True)
    yield publish("job/002", "the last")
    yield line("advance", seconds=1000)
    yield line("stat")
    yield line("disconnect", client=client(0))
    yield line("advance", seconds=1000)
    yield line("stat")


script = "".join(text + "\n" for text in [*begin(), *jobs(), *all_at_once(), *end()]).encode()
written, status = output(script)
made = {".jsonl": script, ".out": written, ".status": f"{status}\n".encode()}
if "--check" in sys.argv:
    old = [name for name, text in made.items() if ROW.with_suffix(name).read_bytes() != text]
    sys.exit(f"{ROW} is not what dev/three_hundred.py makes: {old}" if old else 0)
for name, text in made.items():
    ROW.with_suffix(name).write_bytes(text)
