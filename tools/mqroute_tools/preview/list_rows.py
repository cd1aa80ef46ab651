"""The lines of an access list of which mosquitto takes each, as it reads them."""
import re
from dataclasses import dataclass

from ..common.files import decoded, open_input, plain_file
from ..script.access_list import Line

ACCESSES = ("read", "write", "readwrite", "deny")
BLANKS = " \t\v\f\r"  # that are taken off the end of a line
MARK = re.compile("%[cu]")  # of a `pattern` line


@dataclass(frozen=True)
class Row:
    """A `topic` or `pattern` line."""
    file: str
    line: int
    text: str
    is_pattern: bool
    user: str | None  # above it; of a pattern nobody's
    access: str
    filter: str

    def shown(self) -> Line:
        return Line(self.file, self.line, self.text)

    def denies(self) -> bool:
        return self.access == "deny"


def rows_of(path: str, name: str) -> list[Row]:
    """Of the list in this file, which is shown under the name."""
    found, user = [], None
    with open_input(path) as stream:
        text = decoded(stream.read(), name)
    for number, whole in enumerate(text.split("\n"), 1):
        line = whole.rstrip(BLANKS)
        word, _, rest = line.lstrip(" ").partition(" ")
        if line.startswith("#") or not line:
            continue
        if word == "user":
            user = rest.strip(BLANKS)
            continue
        access, filter_ = access_and_filter(rest.lstrip(" "))
        is_pattern = word == "pattern"
        found.append(Row(name, number, whole, is_pattern, None if is_pattern else user, access,
                         filter_))
    return found


def access_and_filter(rest: str) -> tuple[str, str]:
    """A word alone is the filter."""
    access, blank, wanted = rest.partition(" ")
    if blank and access in ACCESSES:
        return access, wanted.lstrip(BLANKS)
    return "readwrite", rest


def users_of(name: str) -> list[str]:
    """Whom the list names; nobody where it isn't a file."""
    rows = rows_of(name, name) if plain_file(name) else []
    return list(dict.fromkeys(row.user for row in rows if row.user))
