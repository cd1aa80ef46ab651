"""The options of replay: of a run of many cases, and which go with which."""
import argparse
from pathlib import Path

from ..common.exit_status import UsageFault

# Options of a run of one script, and those of a run of many.
OF_ONE = ("acl_file", "rules", "max_retained", "max_queued", "wills",
          "no_wait")
OF_ALL = ("start", "known", "save", "junit", "tap", "json", "verbose")


def add_all(parser: argparse.ArgumentParser) -> None:
    """The options of a run of many cases."""
    parser.add_argument("--all", type=Path, metavar="FOLDER",
                        help="run each case of the folder and those in it: NAME.jsonl, with "
                        "NAME.out beside it")
    parser.add_argument("--start", metavar="COMMAND",
                        help="with --all: begin a broker by the shell's COMMAND for each case, and "
                        "end it; without it all run on one broker, each with names of its own")
    parser.add_argument("--known", type=Path, action="append", default=[], metavar="FOLDER",
                        help="with --all: what differs as SECTION/NAME.diff in it is known")
    parser.add_argument("--save", type=Path, metavar="FOLDER",
                        help="with --all: write what differs there as SECTION/NAME.diff")
    parser.add_argument("--junit", metavar="FILE", help="with --all: write JUnit's XML, too")
    parser.add_argument("--tap", action="store_true",
                        help="with --all: print the Test Anything Protocol")
    parser.add_argument("--json", action="store_true",
                        help="with --all: print each case, and last a summary, as JSON on a line")
    parser.add_argument("--verbose", action="store_true",
                        help="with --all: print what differs and is known or free, too")


def look_at_options(options: argparse.Namespace) -> None:
    def given(names: tuple[str, ...]) -> list[str]:
        return [f"--{name.replace('_', '-')}" for name in names if getattr(options, name)]
    if options.all is None:
        if given(OF_ALL):
            raise UsageFault(f"{given(OF_ALL)[0]} needs --all")
        if options.output is None:
            raise UsageFault("needs SCRIPT and OUTPUT, or --all FOLDER")
    elif options.script is not None or given(OF_ONE):
        raise UsageFault(f"--all can't be used with {(given(OF_ONE) or ['SCRIPT and OUTPUT'])[0]}")
    elif options.tap and options.json:
        raise UsageFault("--tap can't be used with --json")
