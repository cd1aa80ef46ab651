#!/usr/bin/env python3
"""Times a live mosquitto beside mqroute, on the loopback: live.py PROGRAM.

The clients are those of live_client.c, which gives a script's commands to the broker in its order:
each once the one before is answered, and with 1,000 publishes under way. It prints a table: seconds
by the clock, the best of five, and with them those of the processors: the broker's and its
client's, and mqroute's.
"""
import contextlib
import os
import pathlib
import resource
import shutil
import socket
import subprocess
import sys
import tempfile
import time

from live_packets import packets

HERE = pathlib.Path(__file__).resolve().parent
TURNS = 5
LIMIT = 120  # seconds after which a client is ended
UNDER_WAY = (1, 1_000)  # how many publishes may be without their answers

# In words, the script, and the access list.
ROWS = [
    ("a plant's day: 1,000 clients, 101,200 lines that set it up, 20,000 publishes",
     ["plant.py", "day", "1000", "100", "20000"], ["plant.py", "list", "100"]),
    ("100,000 publishes to 5 clients", ["scripts.py", "five"], None),
]

# Nothing waits for room in mosquitto, and nothing is written to a disk.
SETTINGS = """allow_anonymous true
max_inflight_messages 0
max_queued_messages 0
set_tcp_nodelay true
log_type error
persistence false
"""


def written(words):
    return subprocess.run([sys.executable, HERE / words[0], *words[1:]], check=True,
                          stdout=subprocess.PIPE).stdout


def free_port():
    with socket.socket() as some:
        some.bind(("127.0.0.1", 0))
        return some.getsockname()[1]


def wait_for(port):
    for _ in range(100):
        with contextlib.suppress(OSError):
            socket.create_connection(("127.0.0.1", port)).close()
            return
        time.sleep(0.05)
    sys.exit("live: mosquitto doesn't answer")


@contextlib.contextmanager
def broker(folder, rows):
    """A mosquitto of its own, on a free port of the loopback."""
    port = free_port()
    settings = folder / "mosquitto.conf"
    listed = f"acl_file {rows}\n" if rows else ""
    # As root it would go on as another user, who may not read the folder.
    settings.write_text(f"listener {port} 127.0.0.1\nuser {user_name()}\n{SETTINGS}{listed}")
    process = subprocess.Popen(["mosquitto", "-c", settings], stdout=subprocess.DEVNULL,
                               stderr=subprocess.DEVNULL)
    try:
        wait_for(port)
        yield process, port
    finally:
        process.terminate()
        process.wait()


def user_name():
    return subprocess.run(["id", "-un"], check=True, capture_output=True, text=True).stdout.strip()


def processor_seconds(process):
    fields = pathlib.Path(f"/proc/{process.pid}/stat").read_text().rpartition(")")[2].split()
    return (int(fields[11]) + int(fields[12])) / os.sysconf("SC_CLK_TCK")


def live(folder, rows, window):
    """Seconds by the clock, of the broker's processor and of the client's; and the copies."""
    with broker(folder, rows) as (process, port):
        done = subprocess.run([folder / "client", str(port), folder / "packets", str(window),
                               str(LIMIT)], capture_output=True, text=True)
        if done.returncode != 0:
            sys.exit(f"live: the client ends with {done.returncode}: {done.stderr}")
        clock, own, copies = done.stdout.split()
        return float(clock), processor_seconds(process), float(own), int(copies)


def offline(program, folder, rows):
    """Seconds by the clock and of the processor, and the copies."""
    options = ["--rules", "mosquitto", *(["--acl-file", rows] if rows else [])]
    began = time.monotonic()
    with open(folder / "answers", "wb") as out:
        child = subprocess.Popen([program, *options, folder / "script"], stdout=out)
        _, _, used = os.wait4(child.pid, 0)
    clock = time.monotonic() - began
    with open(folder / "answers", "rb") as out:
        copies = sum(answer.startswith(b'{"client"') for answer in out)
    return clock, used.ru_utime + used.ru_stime, copies


def measured(program, folder, label, script, rows):
    (folder / "script").write_bytes(written(script))
    if rows:
        (folder / "list").write_bytes(written(rows))
        rows = folder / "list"
    with open(folder / "script", "rb") as lines:
        (folder / "packets").write_bytes(b"".join(packets(lines)))
    # In turns, since a machine's speed may change from minute to minute.
    turns = [(offline(program, folder, rows), *(live(folder, rows, most) for most in UNDER_WAY))
             for _ in range(TURNS)]
    best_own, *bests = map(min, zip(*turns))
    own, used, routed = best_own
    for most, (clock, of_broker, of_client, copies) in zip(UNDER_WAY, bests):
        print(f"| {label} | {most:,} | {copies:,} | {clock:.2f} ({of_broker:.1f} + "
              f"{of_client:.1f}) | {routed:,} | {own:.2f} ({used:.2f}) | {clock / own:.1f} |",
              flush=True)


def main():
    program = sys.argv[1]
    for needed in ("mosquitto", "cc"):
        if shutil.which(needed) is None:
            print(f"live: left out, since there is no {needed}")
            return
    most = resource.getrlimit(resource.RLIMIT_NOFILE)[1]
    resource.setrlimit(resource.RLIMIT_NOFILE, (most, most))
    print("| Script | Under way | Copies by mosquitto | Seconds (broker + client) | "
          "Copies by `mqroute` | Seconds (processor) | Ratio |\n|---|---|---|---|---|---|---|")
    with tempfile.TemporaryDirectory() as name:
        folder = pathlib.Path(name)
        subprocess.run(["cc", "-O2", "-o", folder / "client", HERE / "live_client.c"], check=True)
        for row in ROWS:
            measured(program, folder, *row)


if __name__ == "__main__":
    main()
