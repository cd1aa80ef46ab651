#!/usr/bin/env python3
"""Tells how the time and the memory of the scripts of hostile.py grow: curves.py PROGRAM
[YARDSTICK]. Each is given at two sizes. The curve is the power of the size that the greater one
took more: 1 is linear, 2 quadratic. Behind that stands what each thing took, from the smaller size
to the larger: of the site, each device."""
import math
import sys
import tempfile
from dataclasses import dataclass

from hostile import LISTS, SCRIPTS
from program import Program

LEAST_SECONDS = 0.05  # of the smaller size: below that the clock's ticks are seen
LEAST_BYTES = 1 << 20  # that the larger size takes more


@dataclass(frozen=True)
class Taken:
    """By a script of one size."""
    size: int
    seconds: float
    peak: int  # bytes


def taken(program, script, size):
    with tempfile.NamedTemporaryFile() as rows:
        arguments = []
        if script in LISTS:
            rows.writelines(LISTS[script](size))
            rows.flush()
            arguments = ["--acl-file", rows.name]
        run = Program([program, *arguments])
        run.give(script(size))
        found = Taken(size, run.seconds(), run.peak())
        run.finish()
        return found


def power(small, large, of_small, of_large):
    """Of which power of the size something grew."""
    return math.log(of_large / of_small) / math.log(large / small)


def curve(small, large):
    """Of the seconds; `-` where the clock can't tell."""
    if small.seconds < LEAST_SECONDS:
        return "-"
    return f"{power(small.size, large.size, small.seconds, large.seconds):.1f}"


def each(small, large):
    """The microseconds and the bytes of one thing more."""
    things = large.size - small.size
    more = large.peak - small.peak
    held = f"{more / things:,.0f}" if more >= LEAST_BYTES else "-"
    return f"{(large.seconds - small.seconds) / things * 1e6:,.1f}", held


def cells(name, program, small, large):
    """Of a row: sizes, seconds, megabytes, the curve, and what each thing took."""
    seconds = f"{small.seconds:.2f}; {large.seconds:.2f}"
    peaks = f"{small.peak / 1e6:,.0f}; {large.peak / 1e6:,.0f}"
    return [name, program.rpartition("/")[2], f"{small.size:,}; {large.size:,}", seconds,
            curve(small, large), peaks, *each(small, large)]


def main():
    print("| Script | Program | n | user seconds | curve | peak, MB | µs each | bytes each |")
    print("|---|---|---|---|---|---|---|---|")
    for script, sizes in SCRIPTS.items():
        for program in sys.argv[1:]:
            small, large = (taken(program, script, size) for size in sizes)
            print("|", " | ".join(cells(script.__doc__, program, small, large)), "|", flush=True)


if __name__ == "__main__":
    main()
