"""The lines of an access list (docs/definitions/access-lists.md), each with its topic filter."""
from collections.abc import Iterator
from dataclasses import dataclass

from ..common.exit_status import Fault
from ..common.files import at
from ..common.texts import quoted
from .filters import Levels, is_filter, levels, text_of
from .plan_lines import BLANKS, LineFault, MARKS, split_word, trimmed

ACCESS = ("read", "write", "readwrite", "deny")


@dataclass(frozen=True)
class Line:
    """A `topic` or `pattern` line. `front` is what stands before its filter, `end` a CR or
    nothing."""
    number: int
    text: str
    front: str
    wanted: Levels
    end: str
    is_pattern: bool

    def with_filter(self, wanted: Levels) -> str:
        return f"{self.front}{text_of(wanted)}{self.end}"


def lines_of_list(text: str, name: str = "the list") -> Iterator[Line]:
    """Raises Fault at the first faulty line."""
    for number, line in enumerate(text.split("\n"), 1):
        try:
            found = line_of(number, line)
        except LineFault as fault:
            raise Fault(f"{at(name, number)}: {fault}") from fault
        if found is not None:
            yield found


def line_of(number: int, line: str) -> Line | None:
    """None of a `user` line, a comment, or an empty line."""
    text = trimmed(line)
    if text == "" or text.startswith("#"):
        return None
    keyword, rest = split_word(text)
    if keyword not in ("topic", "pattern", "user"):
        raise LineFault(f"unknown keyword {quoted(keyword)}: expected topic, pattern or user")
    if rest == "":
        raise LineFault(f"the {'user name' if keyword == 'user' else 'topic'} is missing")
    if keyword == "user":
        return None
    topic = topic_of(rest)
    refuse_marks(keyword, topic)
    front = line.lstrip(BLANKS)
    front = line[:len(line) - len(front)] + text[:len(text) - len(topic)]
    end = "\r" if line.endswith("\r") else ""
    return Line(number, text, front, levels(topic), end, keyword == "pattern")


def topic_of(rest: str) -> str:
    """What stands behind an access word, or alone."""
    access, topic = split_word(rest)
    if topic == "":
        topic = rest
    elif access not in ACCESS:
        raise LineFault(f"unknown access {quoted(access)}: expected read, write, readwrite or deny")
    if not is_filter(levels(topic)):
        raise LineFault(f"{quoted(topic)} is not a topic filter")
    return topic


def refuse_marks(keyword: str, topic: str) -> None:
    if keyword == "pattern" and any(
            mark in level and mark != level for mark in MARKS for level in levels(topic)):
        raise LineFault(f"%c and %u must be whole levels: {quoted(topic)}")


def opened(wanted: Levels) -> Levels:
    """With any level where a mark is."""
    return tuple("+" if level in MARKS else level for level in wanted)
