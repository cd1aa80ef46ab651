"""Options of the tools that read a log."""
import argparse
import re
from datetime import datetime

from ..common.exit_status import Fault
from ..common.messages import named
from ..common.option_values import whole_number
from ..common.texts import quoted
from ..conf.limits import refuse_short_log
from ..conf.mosquitto_conf import Conf
from ..conf.places import place_of
from ..script.conf_file import read_conf_file
from ..script.sessions import FOREVER

ISO = "%Y-%m-%dT%H:%M:%S"  # which is read without being named
# as they stand in the options that argparse gives
NAMES = ("time_format", "session_expiry", "no_inference", "begin")


def given_options(options: argparse.Namespace, names: tuple[str, ...] = NAMES) -> list[str]:
    """Those of the options that stand on the command line, as they are written there."""
    return [f"--{name.replace('_', '-')}" for name in names if is_given(getattr(options, name))]


def is_given(value: object) -> bool:
    """Also where it is 0."""
    return value is not None and value is not False and value != []


def time_format(text: str) -> str:
    """One that Python's strptime can read times by."""
    try:
        datetime.strptime(datetime(2000, 1, 1).strftime(text), text)
    except re.error as fault:
        raise argparse.ArgumentTypeError(f"{quoted(text)} has a directive twice") from fault
    except ValueError as fault:
        if "directive" in str(fault) or "stray" in str(fault):
            raise argparse.ArgumentTypeError(str(fault)) from fault
    return text


def add_log_options(parser: argparse._ActionsContainer) -> None:
    parser.add_argument("--time-format", metavar="FORMAT", type=time_format,
                        help="log_timestamp_format as in mosquitto.conf; not needed for seconds, "
                        "ISO times and lines without a time")
    parser.add_argument("--session-expiry", metavar="SECONDS", type=whole_number(0, FOREVER),
                        help="Session Expiry Interval of MQTT 5 clients that connect without Clean "
                        "Start; without it a client's next CONNACK shows whether its session "
                        "was kept")
    parser.add_argument("--no-inference", action="store_true",
                        help="infer nothing of what was before the log")
    parser.add_argument("--begin", metavar="FILE",
                        help="a script to begin with, such as what --state wrote for the log "
                        "before this one")


def add_conf_option(parser: argparse.ArgumentParser, what: str) -> None:
    parser.add_argument("--conf", metavar="FILE", help=f"a mosquitto.conf, which names {what}")


def logs_of(options: argparse.Namespace, given: list[str]) -> list[str]:
    """The logs that are given, or those of the configuration; its form of times is put in place of
    an option that isn't given."""
    if options.conf is None:
        return given
    return logs_by_conf(options, read_conf_file(options.conf), given)


def logs_by_conf(options: argparse.Namespace, conf: Conf, given: list[str]) -> list[str]:
    """Raises Fault where the configuration names none, or one that lacks what is needed."""
    logs = given
    if not logs:
        refuse_short_log(conf)
        logs = [place_of(conf.path, name) for name in conf.log_files()]
    if not logs:
        raise Fault(f"{named(conf.path)}: it names no log file (log_dest file): give a log, such "
                    "as what journalctl -u mosquitto -o cat prints")
    form = conf.all.text("log_timestamp_format", ISO)
    if options.time_format is None and form != ISO:
        options.time_format = form
    return logs
