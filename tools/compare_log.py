#!/usr/bin/env python3
"""Compares a mosquitto log's own copies with those that mqroute printed for its script."""
import sys

from mqroute_tools.cli import compare_log

if __name__ == "__main__":
    sys.exit(compare_log())
