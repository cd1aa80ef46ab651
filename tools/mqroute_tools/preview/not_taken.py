"""Lists with a line that mosquitto doesn't take: nothing is tried under them, and whoever would
reload one is told what becomes of the broker."""
from collections.abc import Iterable
from dataclasses import asdict, dataclass

from ..common import texts
from ..common.exit_status import Fault
from ..common.files import at, whole
from ..common.messages import named
from ..common.page_frame import ENDING, beginning
from ..losses.html_escape import escaped
from ..script.access_list import Line
from .findings import Json
from .page_style import STYLE

# conf.c and loop.c of mosquitto 2.0.11: the result of reading a list again isn't looked at
DONT_RELOAD = ("DON'T RELOAD {}: mosquitto 2.0.11 drops a list with a faulty line, and then allows "
               "everything to everybody. It doesn't start with it either.")
KINDS = ("fault", "tab", "indented comment")  # of remarks, on lines that mosquitto doesn't take
SHOWN = 20  # lines of a list


@dataclass
class NotTaken:
    """A line that mosquitto doesn't take, and why."""
    line: Line
    words: str

    def in_words(self) -> str:
        return f"{at(self.line.file, self.line.line)}: {texts.escaped(self.words)}"


class ListsNotTaken(Fault):
    """What is said of one is its first line."""

    def __init__(self, lines: list[NotTaken]) -> None:
        super().__init__(lines[0].in_words())
        self.lines = lines


def warning(name: str) -> str:
    return DONT_RELOAD.format(named(name))


def by_list(lines: Iterable[NotTaken]) -> dict[str, list[NotTaken]]:
    found: dict[str, list[NotTaken]] = {}
    for one in lines:
        found.setdefault(one.line.file, []).append(one)
    return found


def shown(lines: list[NotTaken]) -> list[str]:
    words = [one.in_words() for one in lines[:SHOWN]]
    more = len(lines) - SHOWN
    return words + ([f"and {more} more"] if more > 0 else [])


def as_text(lines: list[NotTaken]) -> str:
    return "".join(line + "\n" for name, found in by_list(lines).items()
                   for line in (*shown(found), warning(name)))


def as_object(current: str, proposed: str, lines: list[NotTaken]) -> Json:
    return {"current": current, "proposed": proposed,
            "not_taken": [asdict(one.line) | {"words": one.words} for one in lines],
            "summary": " ".join(map(warning, by_list(lines)))}


def page(lines: list[NotTaken], title: str) -> str:
    lists = by_list(lines)
    said = " ".join(escaped(warning(name)) for name in lists)
    items = "".join(f"<li><bdi>{escaped(line)}</bdi></li>\n"
                    for found in lists.values() for line in shown(found))
    return (f"{beginning(escaped(title), STYLE)}<header><h1>{escaped(title)}</h1>\n"
            f"<p id='verdict' class='loss'>{said}</p>\n</header>\n"
            f"<section><h2>Lines that mosquitto doesn't take</h2>\n<ul>{items}</ul></section>\n"
            f"<p id='summary'>{said}</p>\n{ENDING}")


def write_page(name: str, lines: list[NotTaken], title: str) -> None:
    with whole(name) as out:
        out.write(page(lines, title).encode())
