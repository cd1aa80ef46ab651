"""plan compare: whether the clients of a script under new names subscribe to what they did."""
import argparse

from ..common.messages import counted
from ..common.tables import columns
from .report import write
from .script_comparison import rows
from .script_translation import read_lines
from .topic_plan import read_plan


def run(options: argparse.Namespace) -> int:
    plan = read_plan(options.plan)
    old, new = read_lines(options.old_script), read_lines(options.new_script)
    found = [list(row) for row in rows(plan, old, new)]
    said = counted(len(found), "differences") if found else "each client subscribes to what it did"
    write("".join(line + "\n" for line in [*columns(found), said]))
    return int(bool(found))
