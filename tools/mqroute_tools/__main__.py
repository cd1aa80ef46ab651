"""python3 -m mqroute_tools SUBCOMMAND .."""
import sys

from .cli import main

if __name__ == "__main__":
    sys.exit(main())
