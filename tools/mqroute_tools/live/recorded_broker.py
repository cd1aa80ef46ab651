"""replay --log: a log is a recorded broker, of which compare-log says whether it sent what mqroute
does."""
import argparse

from ..common.exit_status import UsageFault
from ..log import compare_log as of_log
from ..log.options import NAMES, add_log_options, given_options
from .replay_options import OF_ALL, OF_ONE

# Options of a broker that is there.
OF_BROKER = ("all", "port", "user", "password", "any_member", "standard", "tls", "ca_file",
             "cert_file", "key_file", "insecure", "websockets", "on_acl", *OF_ONE, *OF_ALL)


def add_recorded(parser: argparse.ArgumentParser) -> None:
    group = parser.add_argument_group(
        "a log in place of a broker",
        "replay --log LOG OUTPUT compares the copies of a mosquitto's log with OUTPUT, which "
        "mqroute wrote for the script that log-to-script makes of the log; --conf names the form "
        "of its times then, and these are those of log-to-script")
    group.add_argument("--log", action="append", metavar="LOG",
                       help="a log; several, each with --log, follow one another")
    add_log_options(group)


def refuse_mixed(options: argparse.Namespace) -> None:
    """Raises UsageFault where there are options of the one and of the other."""
    if not options.log:
        for name in given_options(options, NAMES):
            raise UsageFault(f"{name} needs --log")
        return
    for name in given_options(options, OF_BROKER):
        raise UsageFault(f"{name} can't be used with --log")
    if options.script is None or options.output is not None:
        raise UsageFault("--log needs OUTPUT alone")


def compare_log(options: argparse.Namespace) -> int:
    options.output = options.script
    return of_log.run(options)
