"""python3 -m mqroute_tools.plain [OPTIONS] [SCRIPT]: the plain reader in mqroute's place."""
import argparse
import sys
from pathlib import Path

from .reader import LISTS, Reader
from .world import FaultyList

FAILED = 2


def parsed(words: list[str]) -> argparse.Namespace:
    parser = argparse.ArgumentParser(
        prog="mqroute_tools.plain", description="Answers a script as mqroute does, unproved.")
    parser.add_argument("--acl-file", metavar="FILE")
    parser.add_argument("--rules", choices=LISTS, default="own")
    parser.add_argument("--max-retained", type=int, metavar="N")
    parser.add_argument("--max-queued", type=int, metavar="N")
    parser.add_argument("--unbuffered", action="store_true")
    parser.add_argument("script", nargs="?", default="-")
    return parser.parse_args(words)


def run(words: list[str]) -> int:
    options = parsed(words)
    acl = None if options.acl_file is None else Path(options.acl_file).read_bytes().decode()
    reader = Reader(acl, options.max_retained, options.max_queued, options.rules)
    stream = sys.stdin.buffer if options.script == "-" else open(options.script, "rb")
    with stream:
        for text in reader.answers(stream):
            sys.stdout.buffer.write(text)
            if options.unbuffered:
                sys.stdout.buffer.flush()
    return 1 if reader.has_refused else 0


def main() -> int:
    try:
        return run(sys.argv[1:])
    except (OSError, UnicodeDecodeError, FaultyList) as fault:
        print(f"mqroute_tools.plain: {fault}", file=sys.stderr)
        return FAILED


if __name__ == "__main__":
    sys.exit(main())
