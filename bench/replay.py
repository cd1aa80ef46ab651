#!/usr/bin/env python3
"""Times mqroute-replay with many clients on a live mosquitto, on the loopback: replay.py PROGRAM
[TOOLS]. It prints a table: seconds by the clock, and of replay's own user time, the best of two.

Each client connects and subscribes once; then they publish by turns. TOOLS is the folder of the
tools that are timed, tools/ by default.
"""
import json
import pathlib
import random
import resource
import shutil
import subprocess
import sys
import tempfile
import time

from live import broker

HERE = pathlib.Path(__file__).resolve().parent
PYTHON = "/usr/bin/python3"  # which has Debian's python3-paho-mqtt
TURNS = 2

# In words, how many clients and lines, and the filter of a client.
ROWS = [
    ("50 clients, each with a filter of its own", 50, 1_250, lambda n, _: f"dev/{n}/#"),
    ("50 clients, a third of them with one filter", 50, 1_250,
     lambda n, chance: chance.choice([f"dev/{n}/+", "dev/+/state", f"dev/{n // 2}/#"])),
    ("50 clients, all with `#`", 50, 1_250, lambda n, _: "#"),
    ("2,000 clients, each with a filter of its own", 2_000, 5_000, lambda n, _: f"dev/{n}/#"),
]


def script(clients, lines, filter_of):
    chance = random.Random(1)
    names = [f"c{n}" for n in range(clients)]
    yield from ({"do": "connect", "client": name} for name in names)
    for n, name in enumerate(names):
        yield {"do": "subscribe", "client": name, "filter": filter_of(n, chance),
               "qos": chance.randrange(3)}
    for n in range(lines - 2 * clients):
        topic = f"dev/{chance.randrange(clients)}/{chance.choice(['state', 'heat'])}"
        yield {"do": "publish", "client": chance.choice(names), "topic": topic,
               "payload": str(n), "qos": chance.randrange(3)}


def timed(tools, folder):
    """Seconds by the clock, and of the processor for replay itself."""
    before = resource.getrusage(resource.RUSAGE_CHILDREN).ru_utime
    with broker(folder, None) as (_, port):
        began = time.monotonic()
        done = subprocess.run([PYTHON, tools / "replay.py", "--port", str(port),
                               folder / "script", folder / "output"], capture_output=True)
        clock = time.monotonic() - began
        used = resource.getrusage(resource.RUSAGE_CHILDREN).ru_utime - before
    if done.returncode:
        sys.exit(f"replay: status {done.returncode}: {done.stderr.decode()[:500]}")
    return clock, used


def main():
    program = sys.argv[1]
    tools = pathlib.Path(sys.argv[2]) if len(sys.argv) > 2 else HERE.parent / "tools"
    if shutil.which("mosquitto") is None:
        print("replay: left out, since there is no mosquitto")
        return
    print("| Script | Lines | Copies | Seconds (user) |\n|---|---|---|---|")
    with tempfile.TemporaryDirectory() as name:
        folder = pathlib.Path(name)
        for label, clients, lines, filter_of in ROWS:
            texts = (json.dumps(line) + "\n" for line in script(clients, lines, filter_of))
            (folder / "script").write_text("".join(texts))
            with open(folder / "output", "wb") as out:
                subprocess.run([program, folder / "script"], stdout=out, check=True)
            copies = (folder / "output").read_bytes().count(b'{"client"')
            clock, used = min(timed(tools, folder) for _ in range(TURNS))
            print(f"| {label} | {lines:,} | {copies:,} | {clock:.1f} ({used:.1f}) |", flush=True)


main()
