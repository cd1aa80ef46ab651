#!/usr/bin/env python3
"""Names what is wrong in each invalid line of a script."""
import sys

from mqroute_tools.cli import check

if __name__ == "__main__":
    sys.exit(check())
