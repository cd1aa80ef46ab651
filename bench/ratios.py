#!/usr/bin/env python3
"""Tells of runs in turns: ratios.py LABEL LINES. Each line of standard input has the user seconds
of the program and, if it was measured, of the yardstick. It prints the best of each, and the median
of the ratios of each two."""
import statistics
import sys

label, lines = sys.argv[1], int(sys.argv[2])
rounds = [[float(seconds) for seconds in line.split()] for line in sys.stdin]
best = min(times[0] for times in rounds)
print(f"{label}: {best:.3f} s user, {lines / max(best, 0.001):.0f} lines a second")
if all(len(times) == 2 for times in rounds):
    ratio = statistics.median(own / max(other, 0.001) for own, other in rounds)
    print(f"    the yardstick: {min(other for _, other in rounds):.3f} s user; ratio {ratio:.2f} "
          f"(the median of {len(rounds)})")
