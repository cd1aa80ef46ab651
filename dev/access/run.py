"""How a program that asks a mosquitto runs."""
import argparse
import subprocess
import sys

from access.seen import Fault


def parser_of(description):
    """The arguments that each has."""
    parser = argparse.ArgumentParser(description=description.partition("\n\n")[0])
    parser.add_argument("--broker", default="mosquitto", metavar="PROGRAM")
    parser.add_argument("--seed", type=int, default=1, metavar="N")
    return parser


def run(name, ask_all, sums):
    """Asks, prints the sums, and answers the status."""
    try:
        ask_all()
        status = 1 if sums.faults else 0
    except (Fault, OSError, subprocess.SubprocessError) as fault:
        print(f"{name}: {fault}", file=sys.stderr)
        status = 2
    print(sums.in_words())
    return status
