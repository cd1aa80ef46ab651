"""What a comparison finds, as tables on a terminal."""
from collections import Counter

from ..common.messages import counted
from ..common.tables import shown, table, user_shown
from .findings import CauseRow, CopiesRow, Findings, RefusedRow, Refusals, Subject, Totals
from .report_rows import causes_of

IN_BOTH = "refused in both"


def why(newly: Counter[str], no_longer: Counter[str]) -> str:
    parts = [f"{name} {count}" for name, count in sorted(newly.items())]
    parts += [f"no longer {name} {count}" for name, count in sorted(no_longer.items())]
    return ", ".join(parts) or IN_BOTH


def report(found: Findings) -> str:
    if not (found.copies or found.refused or found.totals.turns is not None):
        return ""
    parts = []
    if found.copies:
        copies = by_user_table if found.by == "user" else copies_table
        parts.append("Copies\n" + copies(found.copies))
    if found.refused:
        parts.append("Refused\n" + refused_table(found.refused))
    parts.append(sums(found.totals))
    return "\n\n".join(parts) + "\n"


def sums(totals: Totals) -> str:
    copies, lines = counted(totals.before, "copies"), counted(totals.refused_before, "lines")
    turns = f", {totals.turns} another member's turn" if totals.turns else ""
    return (f"In all {copies} before and {totals.after} after: {totals.lost} lost, "
            f"{totals.gained} gained, {totals.changed} changed{turns}. "
            f"{lines} refused before, {totals.refused_after} after.")


def copies_table(copies: list[CopiesRow]) -> str:
    head = ["client", "topic", "before", "after", "lost", "gained", "changed"]
    rows = [[shown(row.subject.name or ""), shown(row.subject.topic),
             *map(str, vars(row.copies).values())] for row in copies]
    if copies[0].causes is not None:
        head.append("because")
        for row, cells in zip(copies, rows):
            cells.append(because_of(row.causes or []))
    return table(head, rows)


def refused_table(refused: list[RefusedRow]) -> str:
    head = ["user", "clients", "topic"] if refused[0].subject.by_user() else ["client", "topic"]
    head += ["before", "after", "why"]
    rows = [refused_cells(row.subject, row.refusals) for row in refused]
    if any(row.decided for row in refused):
        head.append("decided by")
        for row, cells in zip(refused, rows):
            cells.append(shown(row.decided.in_words()) if row.decided else "")
    return table(head, rows)


def refused_cells(subject: Subject, counts: Refusals) -> list[str]:
    names = [shown(subject.name or "")]
    if subject.by_user():
        names = [user_shown(subject.name), str(subject.clients)]
    return [*names, shown(subject.topic), str(counts.before), str(counts.after),
            why(counts.newly, counts.no_longer)]


def because_of(causes: list[CauseRow]) -> str:
    """The causes of a row, in one cell."""
    sums: Counter[tuple[str, str]] = Counter()
    for cause in causes:
        lines = f" ({cause.decided.in_words()})" if cause.decided else ""
        sums[cause.because(), lines] += cause.copies
    return ", ".join(f"{because} {count}{decided}" for (because, decided), count in sums.items())


def by_user_table(copies: list[CopiesRow]) -> str:
    found = list(causes_of(copies))
    rows = [[user_shown(row.subject.name), str(cause.clients), shown(row.subject.topic),
             cause.what, str(cause.copies), cause.because(), str(cause.lines[0].line)]
            for row, cause in found]
    head = ["user", "clients", "topic", "what", "copies", "because", "first line"]
    if any(cause.decided for _, cause in found):
        head.append("decided by")
        for (_, cause), cells in zip(found, rows):
            cells.append(shown(cause.decided.in_words()) if cause.decided else "")
    return table(head, rows)
