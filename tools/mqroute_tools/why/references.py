"""Lines of the script in the texts of an answer. What they are called is known where it is shown:
of a log the lines are its own."""
import re
from collections.abc import Callable

# no name or topic in a text has U+0000: it is escaped there
REFERENCE = re.compile("\0(\\d+)\0")


def ref(line: int) -> str:
    return f"\0{line}\0"


def resolved(text: str, called: Callable[[int], str]) -> str:
    return REFERENCE.sub(lambda found: called(int(found[1])), text)


def lines_in(text: str) -> set[int]:
    return {int(line) for line in REFERENCE.findall(text)}
