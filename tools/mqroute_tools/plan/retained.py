"""plan retained: writes a script that moves what is retained under old names to the new ones."""
import argparse
import sys

from ..common.files import at
from ..common.messages import counted, note, say
from ..script.output import Command
from .added_client import client_and_user, refuse_taken
from .bridge import refuse_chains
from .day_end import day_end, under
from .kept import Kept, kept_of, moving_script, script_text
from .script_translation import read_lines
from .topic_plan import read_plan, read_text
from .translator import Translator

MOVER = "plan-mover"


def run(options: argparse.Namespace) -> int:
    plan, lines = read_plan(options.plan), read_lines(options.script)
    acl = None if options.acl_file is None else read_text(options.acl_file)
    client, user = client_and_user(options.mover or MOVER)
    refuse_taken(lines, client, "another, by --mover")
    if options.both:
        refuse_chains(plan)
    end = day_end(lines, under(acl, options.acl_file))
    kept = kept_of(Translator(plan), end, acl is not None)
    made = moving_script(kept, client, user, options.both)
    sys.stdout.buffer.write(script_text(made))
    for move in kept.moves:
        if move.why:
            note(f"{at(options.script, move.message.line)}: {move.message.topic}: {move.why}")
    say(in_words(kept, made))
    say(kept.unknown())
    return int(len(kept.moved()) < len(kept.moves))


def in_words(kept: Kept, made: list[Command]) -> str:
    """What the script does."""
    moved = len(kept.moved())
    cleared = sum("payload" not in command for command in made[1:])
    return (f"{counted(kept.retained, 'messages', ',')} retained: {moved:,} published under new "
            f"names, {cleared:,} cleared under old ones")
