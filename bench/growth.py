#!/usr/bin/env python3
"""Tells what one more command costs beside few and beside many things that it has nothing to do
with, and the bytes of each such thing: growth.py MANY PROGRAM [YARDSTICK]. Instructions need
valgrind; without it the bytes alone are shown."""
import shutil
import sys
import tempfile

from commands import FOREVER, line
from program import NothingCounted, Program

FEW = 100
COMMANDS = 200
MOST_USERS = 10_000  # A list may not be much longer.


def subscriptions(n):
    return (line("subscribe", filter=f"other/{i % 1000}/{i}/state") for i in range(n))


def sessions_connected(n):
    return (line("connect", f"other-{i}") for i in range(n))


def sessions_away(n):
    for i in range(n):
        yield line("connect", f"other-{i}", session_expiry=1_000_000 + i)
        yield line("disconnect", f"other-{i}")


def retained_messages(n):
    return (line("publish", topic=f"other/{i // 10}/{i % 10}", payload="on", retain=True,
                 expiry=1_000_000 + i) for i in range(n))


def groups(n):
    return (line("subscribe", filter=f"$share/crew/job/{i}", qos=1) for i in range(n))


def waiting_copies(n):
    yield line("connect", "other", session_expiry=FOREVER)
    yield line("subscribe", "other", filter="other/#", qos=1)
    yield line("disconnect", "other")
    yield from (line("publish", topic="other/state", payload=f"v={i}", qos=1) for i in range(n))


def users_of_a_list(n):
    """These stand in the access list, ten lines each."""
    return iter(())


def access_list(n):
    own = "topic readwrite #\n"
    rows = "".join(f"topic readwrite area/{i}/+\n" for i in range(9))
    return f"user ops\n{own}" + "".join(f"user user-{i}\n{rows}" for i in range(n))


# Of each command COMMANDS are counted, on a world that `begin` sets up.
def begin():
    for i in range(5):
        yield line("connect", f"client-{i}", user="ops")
        yield line("subscribe", f"client-{i}", filter="site/+/temperature", qos=1)
    for i in range(100):
        yield line("publish", topic=f"area/{i // 10}/{i % 10}", payload="on", retain=True)
    for i in range(10):
        yield line("subscribe", filter=f"area/{i}/+")
    for i in range(COMMANDS):
        yield line("connect", f"back-{i}", user="ops", session_expiry=FOREVER)
        yield line("subscribe", f"back-{i}", filter="note", qos=1)
        yield line("disconnect", f"back-{i}")
        yield line("connect", f"ends-{i}", user="ops", session_expiry=i + 1)
        yield line("disconnect", f"ends-{i}")
        yield line("publish", topic=f"goes/{i}", payload="on", retain=True, expiry=i + 1)
    yield line("publish", topic="note", payload="on", qos=1)


def publish(i):  # to 5 receivers
    return line("publish", topic=f"site/{i % 100}/temperature", payload=f"v={i}", qos=1)


def subscribe(i):  # again, and sent 10 retained messages
    return line("subscribe", filter=f"area/{i % 10}/+")


def connect(i):  # the return of a client for which one copy waits
    return line("connect", f"back-{i}", user="ops", clean=False, session_expiry=FOREVER)


def advance(_):  # ends one session and one retained message
    return b'{"do":"advance","seconds":1}\n'


def measured(program, things, n, counted):
    """Instructions of each command, if they are counted, and bytes at the peak, beside n things."""
    with tempfile.NamedTemporaryFile("w") as rows:
        arguments = ["--max-queued", str(n + 1)]
        if things is users_of_a_list:
            rows.write(access_list(n))
            rows.flush()
            arguments += ["--acl-file", rows.name]
        run = Program([program, *arguments], counted)
        run.give(begin())
        run.give(things(n))
        counts = [run.count([command(i) for i in range(COMMANDS)]) // COMMANDS
                  for command in (publish, subscribe, connect, advance)] if counted else []
        peak = run.peak()
        run.finish()
        return counts, peak


def main():
    many = int(sys.argv[1])
    programs = sys.argv[2:]
    print(f"Instructions of one command beside {FEW} and {many:,} things (few, many, ratio), and "
          "bytes of each thing:")
    print("| Things | Program | publish to 5 | subscribe, 10 retained | connect, 1 waiting | "
          "advance, 2 ends | bytes |")
    print("|---|---|---|---|---|---|---|")
    for things in (subscriptions, sessions_connected, sessions_away, retained_messages, groups,
                   waiting_copies, users_of_a_list):
        most = many if things is not users_of_a_list else min(many, MOST_USERS)
        name = things.__name__.replace("_", " ") + ("" if most == many else f" ({most:,})")
        for program in programs:
            cells = []
            if shutil.which("valgrind"):
                few, _ = measured(program, things, FEW, True)
                beside, _ = measured(program, things, most, True)
                cells = [f"{a:,} {b:,} {b / a:.2f}" for a, b in zip(few, beside)]
            _, least = measured(program, things, FEW, False)
            _, peak = measured(program, things, most, False)
            each = (peak - least) / (most - FEW)
            print("|", " | ".join([name, program.rpartition("/")[2], *(cells or ["-"] * 4),
                                   f"{each:,.0f}"]), "|", flush=True)


if __name__ == "__main__":
    try:
        main()
    except NothingCounted as fault:
        sys.exit(f"growth: {fault}")
