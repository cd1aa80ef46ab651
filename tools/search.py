#!/usr/bin/python3
"""Searches for differences between a live MQTT 5 broker and mqroute."""
import sys

from mqroute_tools.cli import search

if __name__ == "__main__":
    sys.exit(search())
