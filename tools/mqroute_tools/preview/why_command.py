"""The command that shows why a client was sent a message, to be pasted into a shell."""
import argparse
import shlex
from collections.abc import Mapping

from ..common.messages import typed
from .findings import Cause

LIMITS = ("max_retained", "max_queued")


def quoted(word: str) -> str:
    """A word as a shell reads it; where it has characters that aren't seen, as bash does."""
    if word.isprintable():
        return shlex.quote(word)
    escaped = "".join(escape(character) for character in word)
    return f"$'{escaped}'"


def escape(character: str) -> str:
    if character in "\\'":
        return "\\" + character
    return character if character.isprintable() else f"\\U{ord(character):08x}"


def file_word(name: str) -> str:
    return quoted(f"./{name}" if name.startswith("-") else name)


class WhyCommand:
    """For the files and options of a preview; none without a script that can be read again."""

    def __init__(self, options: argparse.Namespace, script: str | None,
                 publishes: Mapping[int, int]) -> None:
        # by the lines that causes have, those of the script
        self.publishes = publishes
        self.script = script
        self.words = [typed("why"), "--acl-file", file_word(options.proposed), "--rules",
                      options.rules]
        for name in LIMITS:
            if getattr(options, name) is not None:
                self.words += [f"--{name.replace('_', '-')}", str(getattr(options, name))]

    def of(self, cause: Cause) -> str | None:
        """About the first of its lines that is a publish, or is about one."""
        if self.script is None:
            return None
        for place in cause.lines:
            line = place.publish or place.line
            if line in self.publishes:
                client = quoted(place.client)
                client = f"--client={client}" if place.client.startswith("-") else client
                return " ".join([*self.words, file_word(self.script),
                                 str(self.publishes[line]), client])
        return None
