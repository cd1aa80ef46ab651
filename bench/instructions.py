#!/usr/bin/env python3
"""Counts instructions a command: instructions.py PROGRAM [YARDSTICK]. Each row is a kind of command
in a small world and in a large one, since what it costs beside the yardstick isn't the same in
both."""
import subprocess
import sys
import tempfile
from dataclasses import dataclass
from pathlib import Path

from program import NothingCounted, Program

BESIDE = 100_000  # subscriptions that match nothing


@dataclass(frozen=True)
class World:
    """What stands when counting begins: the first lines of a script, behind those of a client with
    so many subscriptions beside."""
    name: str
    script: str
    first: int
    rows: str | None = None  # the access list
    beside: int = 0


class Row:
    """A command, one of the lines behind the first ones, in a small world and in larger ones."""

    def __init__(self, command, small, *larger):
        self.command = command
        self.worlds = small, *larger


def beside(command, name, script, first):
    """The same, alone and beside subscriptions that it has nothing to do with."""
    return Row(command, World(name, script, first),
               World(f"{name} beside {BESIDE:,} subscriptions", script, first, beside=BESIDE))


def listed(command, script, first, *lists):
    """The same under access lists, each with its name."""
    return Row(command, *(World(name, script, first, rows) for name, rows in lists))


ROWS = [
    beside("a publish that nobody receives", "one client", "scripts.py big 200000", 50),
    beside("a publish to 5 subscribers of one filter", "five clients", "scripts.py others 0 1020",
           31),
    beside("a publish to 5 subscribers of three filters with identifiers", "five clients",
           "scripts.py overlapping 1020", 40),
    Row("a publish to a group",
        World("10 groups", "scripts.py groups 10 1030", 63),
        World("10,000 groups", "scripts.py groups 10000 1030", 30_033)),
    Row("a subscribe that is sent 10 retained messages",
        World("of 1,000", "scripts.py retained 1000 600", 1_101),
        World("of 100,000", "scripts.py retained 100000 600", 100_101)),
    Row("a line of retained topics that end, subscribers, advances",
        World("2,000, 200, 200", "scripts.py lasting 2000 200", 0),
        World("10,000, 1,000, 1,000", "scripts.py lasting 10000 1000", 0)),
    Row("a line of clients for which 1,000 copies wait, and that come back",
        World("20 clients", "scripts.py resuming 20 20", 0),
        World("100 clients", "scripts.py resuming 100 100", 0)),
    Row("a publish under an access list of one user",
        World("100 lines", "scripts.py rules 100 1010", 12, "scripts.py list 100"),
        World("1,000 lines", "scripts.py rules 1000 210", 12, "scripts.py list 1000"),
        World("10,000 lines", "scripts.py rules 10000 60", 12, "scripts.py list 10000")),
    Row("a publish that the last lines of one user grant",
        World("1,000 lines", "scripts.py rules 1000 60 900", 12, "scripts.py list 1000"),
        World("10,000 lines", "scripts.py rules 10000 60 9900", 12, "scripts.py list 10000")),
    Row("a publish to the clients of the user of 1,000 lines",
        World("100 clients", "scripts.py colleagues 100 40 900", 201, "scripts.py list 1000"),
        World("1,000 clients", "scripts.py colleagues 1000 40 900", 2_001,
              "scripts.py list 1000")),
    listed("a publish to 1,000 clients of 100 users of 100 lines in turn",
           "scripts.py mixed 1000 100 40", 2_001,
           ("no pattern", "scripts.py longlist 100 100"),
           ("a pattern of another topic has %c", "scripts.py longlist 100 100 1")),
    Row("a publish to the clients of a user of ten lines each",
        World("100 clients", "scripts.py mixed 100 100 40", 201, "scripts.py userlist 100"),
        World("1,000 clients", "scripts.py mixed 1000 1000 40", 2_001,
              "scripts.py userlist 1000")),
    listed("a publish to 5 subscribers, users of ten lines each", "scripts.py users 220", 30,
           ("10 users", "scripts.py userlist 10"), ("10,000 users", "scripts.py userlist 10000")),
    Row("a publish of a plant's day",
        World("200 clients of 20 subscriptions", "plant.py day 200 20 1000", 4_450,
              "plant.py list 100"),
        World("1,000 clients of 100", "plant.py day 1000 100 1000", 101_250,
              "plant.py list 100")),
    Row("a connect",
        World("500 clients", "scripts.py returning 500 1", 20),
        World("2,000 clients", "scripts.py returning 2000 1", 20)),
    Row("a disconnect, and the session stays",
        World("500 clients", "scripts.py returning 500 2", 520),
        World("2,000 clients", "scripts.py returning 2000 2", 2_020)),
    Row("a connect that resumes a session",
        World("500 clients", "scripts.py returning 500 3", 1_020),
        World("2,000 clients", "scripts.py returning 2000 3", 4_020)),
    Row("a subscribe",
        World("600 filters", "scripts.py leaving 600 0", 21),
        World("3,000 filters", "scripts.py leaving 3000 0", 21)),
    Row("an unsubscribe",
        World("600 filters", "scripts.py leaving 600 600", 621),
        World("3,000 filters", "scripts.py leaving 3000 3000", 3_021)),
    beside("a publish that is refused", "one client", "scripts.py refused 1000", 21),
    Row("a retained publish to a new topic",
        World("600 topics", "scripts.py retained 600 0", 21),
        World("3,000 topics", "scripts.py retained 3000 0", 21)),
    Row("a publish to one group",
        World("1,000 members", "scripts.py members 1000 0 120", 2_021),
        World("100,000 members", "scripts.py members 100000 0 40", 200_021)),
    Row("a publish to one group, all but one away",
        World("1,000 members", "scripts.py members 1000 999 40", 3_020),
        World("10,000 members", "scripts.py members 10000 9999 40", 30_020)),
    Row("a publish to the subscribers of one filter",
        World("1,000 clients", "scripts.py receivers 1000 40", 2_021),
        World("100,000 clients", "scripts.py receivers 100000 3", 200_002)),
    Row("a subscribe to # that is sent all retained messages",
        World("1,000 topics", "scripts.py all 1000 40", 1_021),
        World("100,000 topics", "scripts.py all 100000 3", 100_002)),
]


def written(script):
    name, *arguments = script.split()
    return subprocess.run([sys.executable, Path(__file__).parent / name, *arguments], check=True,
                          stdout=subprocess.PIPE).stdout


def lines_of(world):
    """The script, and how many of its lines come first."""
    other = written(f"scripts.py beside {world.beside}").splitlines(True) if world.beside else []
    return [*other, *written(world.script).splitlines(keepends=True)], len(other) + world.first


def counted(program, world, rows):
    lines, first = lines_of(world)
    run = Program([program, *(["--acl-file", rows] if rows else [])], counted=True)
    try:
        run.give(lines[:first])
        return run.count(lines[first:]) // (len(lines) - first)
    finally:
        run.finish()


def counts(programs, world):
    """Of each program, by turns."""
    with tempfile.NamedTemporaryFile() as file:
        if world.rows:
            file.write(written(world.rows))
            file.flush()
        return [counted(program, world, file.name if world.rows else None) for program in programs]


def shown(row, world, found):
    beside = "".join(
        f", the yardstick {count:,}: ratio {found[0] / count:.2f}" for count in found[1:])
    return f"{row.command} ({world.name}): {found[0]:,}{beside}"


def main():
    print("Instructions for")
    for row in ROWS:
        for world in row.worlds:
            try:
                found = counts(sys.argv[1:], world)
            except NothingCounted as fault:
                sys.exit(f"instructions: {row.command} ({world.name}): {fault}")
            print(shown(row, world, found), flush=True)


if __name__ == "__main__":
    main()
