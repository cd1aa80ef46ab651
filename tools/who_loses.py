#!/usr/bin/env python3
"""Shows who loses (and who gains) what between two outputs of mqroute for one script."""
import sys

from mqroute_tools.cli import who_loses

if __name__ == "__main__":
    sys.exit(who_loses())
