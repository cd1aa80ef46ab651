#!/usr/bin/env python3
"""Shows why a client was sent the message of a publish in a script, or wasn't."""
import sys

from mqroute_tools.cli import why

if __name__ == "__main__":
    sys.exit(why())
