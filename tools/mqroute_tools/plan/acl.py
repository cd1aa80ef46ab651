"""plan acl: writes an access list under a plan, and says whether it allows the same."""
import argparse

from ..common.files import at
from ..common.messages import note, say, typed
from .list_translation import notes_on, translated
from .report import write
from .topic_plan import read_plan, read_text
from .translator import Translator


def run(options: argparse.Namespace) -> int:
    plan, text = read_plan(options.plan), read_text(options.list)
    made = translated(Translator(plan), text, options.list, options.both)
    found = notes_on(plan, made, text, options.list)
    write(made.text)
    for one in found:
        note(f"{at(options.list, one.line)}: {one.words}")
    if any(one.is_difference for one in found):
        say(f"the list isn't exact: {typed('acl compare')} --plan shows all differences")
    return int(bool(found))
