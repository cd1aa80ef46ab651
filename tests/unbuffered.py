#!/usr/bin/env python3
"""Talks to the built program over a pipe and over a terminal: it writes the answers to a line
before it waits for another.

With --unbuffered each command is sent once the answers to those before it have come; so they are on
a terminal without it.
"""
import json
import os
import pathlib
import pty
import select
import subprocess
import sys

from faults import is_absent, status_of

TOP = pathlib.Path(__file__).resolve().parent.parent
PROGRAM = TOP / "bin/mqroute"
SECONDS = 20

# What is sent, in turn, and what is to come back before anything else is sent.
PIECES = [
    ('{"do":"connect","client":"a"}\n', ['{"line":1,"reason":0}']),
    ('{"do":"subscribe","client":"a","filter":"t"}\n', ['{"line":2,"reason":0}']),
    ('{"do":"pub', []),
    ('lish","client":"a","topic":"t"}\n\n{"do":"fly"}\n{"do":',
     ['{"client":"a","line":3,"payload":"","qos":0,"retain":false,"topic":"t"}',
      '{"line":3,"reason":0}',
      '{"code":3,"line":5,"refused":"BadCommand"}']),
    ('"stat"}\n', ['{"line":6,"nodes":1,"retained":0,"subscriptions":1}']),
]


def lines_from(end, count):
    """So many lines, or what came of them in time."""
    text = b""
    while text.count(b"\n") < count and select.select([end], [], [], SECONDS)[0]:
        more = os.read(end, 65536)
        if not more:
            break
        text += more
    return text.decode().splitlines()


def talk(arguments, sent, received):
    """The pieces that are answered by something else."""
    with subprocess.Popen([PROGRAM, *arguments], stdin=sent[0], stdout=received[1]) as program:
        os.close(sent[0])
        os.close(received[1])
        for piece, wanted in PIECES:
            os.write(sent[1], piece.encode())
            answered = lines_from(received[0], len(wanted))
            if answered != wanted:
                yield f"{arguments}: {json.dumps(piece)} is answered by {answered}"
        os.close(sent[1])
        if program.wait(SECONDS) != 1:
            yield f"{arguments}: status {program.returncode}"
    os.close(received[0])


def main():
    if is_absent("unbuffered", PROGRAM):
        return 1
    faults = [*talk(["--unbuffered"], os.pipe(), os.pipe()), *talk([], os.pipe(), pty.openpty())]
    return status_of("unbuffered", faults, f"{2 * len(PIECES)} pieces sent, {len(faults)} faults")


if __name__ == "__main__":
    sys.exit(main())
