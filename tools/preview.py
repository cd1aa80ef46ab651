#!/usr/bin/env python3
"""Shows what a proposed access list would change, tried on a log or a script."""
import sys

from mqroute_tools.cli import preview

if __name__ == "__main__":
    sys.exit(preview())
