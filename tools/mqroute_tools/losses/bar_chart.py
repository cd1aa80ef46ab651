"""A picture of who loses and who gains: bars to the left and to the right, as SVG that keeps its
letters' size at any width."""
from .findings import CopiesRow
from .html_escape import marked, visible

ROWS = 30  # the picture has the largest of so many
STEP, BAR = 42, 13


def picture(rows: list[CopiesRow]) -> str:
    """The bars of the rows, the largest changes first."""
    ordered = sorted(
        rows, key=lambda r: -(r.copies.lost + r.copies.gained + r.copies.changed))
    shown = ordered[:ROWS]
    most = max((max(r.copies.lost, r.copies.gained + r.copies.changed) for r in ordered), default=1)
    bars = "".join(bar(row, i * STEP, 50 / most) for i, row in enumerate(shown))
    height = STEP * len(shown)
    rest = (f"<p class='note'>The {ROWS} largest of {len(ordered)}; all stand below.</p>"
            if len(ordered) > ROWS else "")
    return ("<svg id='picture' role='img' aria-label='Copies lost and gained' width='100%' "
            f"height='{height}'>{bars}"
            f"<line class='axis' x1='50%' x2='50%' y1='0' y2='{height}'/></svg>{rest}")


def bar(row: CopiesRow, top: int, scale: float) -> str:
    """One row: whose, and the numbers, above; the bar below. What is too long for its place is
    cut off by the inner svg."""
    counts = row.copies
    lost, gained, changed = (
        count * scale for count in (counts.lost, counts.gained, counts.changed))
    names = (marked(row.subject), visible(row.subject.topic))
    # isolated: one that runs from right to left doesn't turn its neighbours
    name = " · ".join(f"\u2068{one}\u2069" for one in names)
    shown = (("lost", f"−{counts.lost}", counts.lost),
             ("gained", f"+{counts.gained}", counts.gained),
             ("changed", f"~{counts.changed}", counts.changed))
    parts = [f"<tspan class='{what}'>{text}</tspan>" for what, text, count in shown if count]
    numbers = f"<text x='100%' y='14' text-anchor='end'>{' '.join(parts)}</text>"
    y = top + 20
    return (f"<g><title>{name}: {counts.lost} lost, {counts.gained} gained, "
            f"{counts.changed} changed</title>"
            f"<svg x='0' y='{top}' width='68%' height='19'><text x='0' y='14'>{name}</text></svg>"
            f"<svg x='68%' y='{top}' width='32%' height='19'>{numbers}</svg>"
            f"<rect class='track' x='0' y='{y}' width='100%' height='{BAR}'/>"
            f"<rect class='lost' x='{50 - lost:.3f}%' y='{y}' width='{lost:.3f}%' height='{BAR}'/>"
            f"<rect class='gained' x='50%' y='{y}' width='{gained:.3f}%' height='{BAR}'/>"
            f"<rect class='changed' x='{50 + gained:.3f}%' y='{y}' width='{changed:.3f}%' "
            f"height='{BAR}'/></g>")
