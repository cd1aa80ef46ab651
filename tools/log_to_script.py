#!/usr/bin/env python3
"""Makes a script for mqroute of a mosquitto 2.0 log (log_type all)."""
import sys

from mqroute_tools.cli import log_to_script

if __name__ == "__main__":
    sys.exit(log_to_script())
