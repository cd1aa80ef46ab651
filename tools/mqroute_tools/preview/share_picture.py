"""A picture of what each user keeps, loses and gains: a bar a user, as SVG that keeps its letters'
size at any width."""
import re

from ..losses.html_escape import escaped
from .findings import UserRow
from .words import changes, share, whom

ROWS = 30  # the picture has the first of so many
STEP, BAR = 44, 13
LETTER = 9  # pixels
TAG = re.compile("<.*?>")


def picture(rows: list[UserRow]) -> str:
    """Of the users that lose or gain, in the order of the table."""
    drawn = [row for row in rows if row.lost or row.gained]
    shown = drawn[:ROWS]
    bars = "".join(bar(row, place * STEP) for place, row in enumerate(shown))
    rest = (f"<p class='note'>The first {ROWS} of {len(drawn):,}; all are in the table.</p>"
            if len(drawn) > ROWS else "")
    words = "; ".join(f"{whom(row.user)} {', '.join(changes(row))}" for row in shown)
    return (f"<svg id='picture' role='img' aria-label='{escaped(words)}' width='100%' "
            f"height='{STEP * len(shown)}'>{bars}</svg>{rest}")


def bar(row: UserRow, top: int) -> str:
    """The whole bar is what the user gets now, and what it would gain. What is too long of a name
    is covered behind the numbers."""
    whole = row.before + row.gained
    kept, lost, gained = (100 * part / whole
                          for part in (row.before - row.lost, row.lost, row.gained))
    name, y, width = escaped(whom(row.user)), top + 21, room(row)
    return (f"<g><title>{name} {escaped(', '.join(changes(row)))}</title>"
            f"<text x='0' y='{top + 15}'>\u2068{name}\u2069</text>"
            f"<rect class='cover' x='100%' y='{top}' width='{width}' height='20' "
            f"transform='translate(-{width})'/>"
            f"<text x='100%' y='{top + 15}' text-anchor='end'>{numbers(row)}</text>"
            f"{part('kept', 0, kept, y)}{part('lost', kept, lost, y)}"
            f"{part('gained', kept + lost, gained, y)}</g>")


def part(what: str, left: float, width: float, y: int) -> str:
    if not width:
        return ""
    return (f"<rect class='{what}' x='{left:.3f}%' y='{y}' width='{width:.3f}%' "
            f"height='{BAR}'/>")


def room(row: UserRow) -> int:
    """Pixels for the numbers: as wide as their letters are at most, and some between."""
    return LETTER * (len(TAG.sub("", numbers(row))) + 1)


def numbers(row: UserRow) -> str:
    found = []
    if row.lost:
        percent = share(row.lost, row.before)
        found.append(f"<tspan class='lost'>−{percent} of {row.before:,}</tspan>")
    if row.gained:
        found.append(f"<tspan class='gained'>+{row.gained:,}</tspan>")
    return " ".join(found)
