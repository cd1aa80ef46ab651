"""Colours and width of standard output, where it is a terminal."""
import os
import shutil
import sys
import textwrap
from dataclasses import dataclass

RED, GREEN, YELLOW, DIM, BOLD, PLAIN = (
    f"\33[{code}m" for code in ("31", "32", "33", "2", "1", "0"))


@dataclass(frozen=True)
class Terminal:
    """Without a width lines are as long as they are, as in a file."""
    width: int | None = None
    has_colours: bool = False

    def painted(self, colour: str, text: str) -> str:
        return f"{colour}{text}{PLAIN}" if self.has_colours and colour else text

    def wrapped(self, text: str, indent: str = "", later: str | None = None) -> list[str]:
        """One line, or on a terminal as many as it takes; words stay whole."""
        if self.width is None:
            return [indent + text]
        return textwrap.wrap(
            text, max(self.width, 20), initial_indent=indent, break_on_hyphens=False,
            subsequent_indent=indent if later is None else later, break_long_words=False)

    def fitted(self, parts: list[str], indent: str) -> list[str]:
        """The parts in one line, or where it is too wide each in a line of its own."""
        line = indent + "  ".join(part for part in parts if part)
        if self.width is None or len(line) <= self.width:
            return [line]
        first, *others = (part for part in parts if part)
        return [indent + first, *(f"{indent}  {part}" for part in others)]


def standard_output() -> Terminal:
    """NO_COLOR, set to anything, leaves colours out; so does TERM=dumb."""
    if not sys.stdout.isatty():
        return Terminal()
    plain = os.environ.get("NO_COLOR") or os.environ.get("TERM") == "dumb"
    return Terminal(shutil.get_terminal_size().columns, not plain)
