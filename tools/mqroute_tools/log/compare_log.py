"""compare-log: compares a mosquitto log's own `Sending PUBLISH` lines with the copies that mqroute
printed for its script, which log-to-script makes of the logs with the same options.

One line for each client and topic that differ; copies that the broker sent again are not counted.
Exit status: 0 none differs; 1 some do; 2 usage, a file, or an output that isn't of this log.
"""
import argparse
import gc

from ..common.exit_status import UsageFault
from ..common.files import STDIN, keep_apart, plain_file, refuse_stdin_twice
from ..common.messages import counted, say
from ..common.second_process import ahead
from .comparison import Comparison
from .log_files import Logs
from .options import add_conf_option, add_log_options, logs_of
from .script_writer import read_logs
from .step_reader import Watcher, answered, steps


def compare(watcher: Watcher, logs: Logs, output: str) -> Comparison:
    found = Comparison()
    for step in answered(ahead(steps(watcher, logs.streams())), output):
        found.add(step)
    return found


def add_arguments(parser: argparse.ArgumentParser) -> None:
    parser.description = (
        "Compares a mosquitto log's own Sending PUBLISH lines with mqroute's copies.")
    parser.add_argument("log", metavar="LOG", nargs="*",
                        help="as for log-to-script, as are the options")
    parser.add_argument("output", metavar="OUTPUT",
                        help="what mqroute wrote for the script that log-to-script makes of the "
                        "logs with the same options")
    add_conf_option(parser, "the log and the form of its times")
    add_log_options(parser)


def run(options: argparse.Namespace) -> int:
    # Next to nothing here refers to itself, and to look for it takes up to a tenth of the time.
    gc.disable()
    options.log = logs_of(options, options.log)
    if not options.log:
        raise UsageFault("needs a log, or --conf")
    files = [*options.log, options.output, options.begin, options.conf]
    refuse_stdin_twice(files)
    keep_apart(files)
    logs = Logs(options.log, not options.no_inference, options.time_format)
    is_kept = options.output != STDIN and plain_file(options.output) is not None
    _, found = read_logs(Watcher, options, logs,
                         lambda watcher: compare(watcher, logs, options.output), again=is_kept)
    for line in found.lines():
        print(line)
    refused = counted(found.refused, "publishes")
    say(f"the broker sent {counted(found.sent, 'copies')} and refused {refused}; "
        f"{counted(found.kinds.total(), 'differences')}")
    for kind, count in found.by_kind():
        say(f"{count} {kind}")
    return 1 if found.kinds else 0
