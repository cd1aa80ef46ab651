"""preview --outputs: who loses what between two outputs that one has, as who-loses answers."""
import argparse

from ..common.exit_status import UsageFault
from ..log.options import given_options
from ..losses import who_loses

# Options of a preview that tries lists, and those of two outputs.
OF_LISTS = ("conf", "port", "title", "no_check", "save", "max_retained", "max_queued",
            "time_format", "session_expiry", "no_inference", "begin")
OF_OUTPUTS = ("depth", "by", "why", "old_acl_file", "new_acl_file", "new_script")


def add_outputs(parser: argparse.ArgumentParser) -> None:
    group = parser.add_argument_group(
        "two outputs in place of lists",
        "preview --outputs OLD_OUTPUT NEW_OUTPUT SCRIPT shows who loses what between them; with "
        "--rules, --plan, --json and --html, and these")
    group.add_argument("--outputs", nargs=2, metavar=("OLD_OUTPUT", "NEW_OUTPUT"),
                       help="what mqroute wrote for SCRIPT under two lists")
    who_loses.add_outputs_options(group)


def refuse_mixed(options: argparse.Namespace) -> None:
    """Raises UsageFault where there are options of the one and of the other."""
    if options.outputs is None:
        for name in given_options(options, OF_OUTPUTS):
            raise UsageFault(f"{name} needs --outputs")
        return
    for name in given_options(options, OF_LISTS):
        raise UsageFault(f"{name} can't be used with --outputs")
    if options.proposed is not None:
        raise UsageFault("--outputs needs SCRIPT alone")


def compare_outputs(options: argparse.Namespace) -> int:
    options.script = options.current
    options.old_output, options.new_output = options.outputs
    return who_loses.run(options)
