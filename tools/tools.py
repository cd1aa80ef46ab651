#!/usr/bin/env python3
"""The tools under one name, mqroute-tools SUBCOMMAND .., as `python3 -m mqroute_tools` has them."""
import sys

from mqroute_tools.cli import main

if __name__ == "__main__":
    sys.exit(main())
