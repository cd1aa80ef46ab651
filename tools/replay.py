#!/usr/bin/python3
"""Runs a script on a live MQTT 5 broker and compares who got what with mqroute's output."""
import sys

from mqroute_tools.cli import replay

if __name__ == "__main__":
    sys.exit(replay())
