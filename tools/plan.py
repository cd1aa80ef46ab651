#!/usr/bin/env python3
"""Shows what becomes of topics, filters, access lists and scripts if topics are renamed."""
import sys

from mqroute_tools.cli import plan

if __name__ == "__main__":
    sys.exit(plan())
