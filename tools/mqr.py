#!/usr/bin/env python3
"""One command for people: each question is a subcommand."""
import sys

from mqroute_tools.questions import main

if __name__ == "__main__":
    sys.exit(main())
