"""What a broker keeps under old names at the end of a script, as `plan check` shows it."""
from ..common.files import STDIN
from ..common.messages import own_name
from ..common.tables import columns, shown
from ..common.texts import escaped
from .filter_words import NOTHING
from .kept import AWAY, STAYS, Kept, Move, OldSession
from .report import Report

ROWS = 20  # of each table
HEAD = ["line", "client", "retained", "becomes", ""]
SESSIONS_HEAD = ["line", "client", "waiting", "subscribed to", "becomes"]
NO_NAME = "(none)"


def report_kept(report: Report, plan: str, script: str, kept: Kept) -> None:
    """Nothing where nothing is retained, and no session is away."""
    if not kept.retained and not kept.away:
        return
    report.objects += [{"kind": "retained"} | move.json() for move in kept.moves]
    report.objects += [{"kind": "session"} | one.json() for one in kept.sessions]
    report.objects.append({"kind": "kept"} | kept.sums() | {"not_known": kept.not_known})
    report.blank()
    if kept.retained:
        report.lines.append(f"Retained at the end of {escaped(script)}: {kept.of_retained()}")
        report.lines += [*retained_lines(kept.moves), *hint(kept, plan, script)]
        report.blank()
    if kept.away:
        report.lines.append(f"Away at the end of {escaped(script)}: {kept.of_sessions()}")
        report.lines += session_lines(kept.sessions)
        report.blank()
    report.lines.append(kept.unknown())
    report.blank()


def retained_lines(moves: list[Move]) -> list[str]:
    if not moves:
        return []
    return [*columns([HEAD, *map(retained_row, moves[:ROWS])], (0,)), *more(len(moves)), STAYS]


def retained_row(move: Move) -> list[str]:
    found, new = move.message, NO_NAME if move.new is None else shown(move.new)
    return [str(found.line), shown(found.client), shown(found.topic), new, move.why]


def more(number: int) -> list[str]:
    return [f"and {number - ROWS:,} more: --json has all"] if number > ROWS else []


def hint(kept: Kept, plan: str, script: str) -> list[str]:
    """How they are moved, where the files can be read again."""
    if not kept.renamed() or STDIN in (plan, script):
        return []
    does = "moves" if kept.moved() else "clears"
    return [escaped(f"{own_name()} retained {plan} {script} writes a script that {does} them.")]


def session_lines(sessions: list[OldSession]) -> list[str]:
    if not sessions:
        return []
    rows = [row for one in sessions[:ROWS] for row in session_rows(one)]
    return [*columns([SESSIONS_HEAD, *rows], (0, 2)), *more(len(sessions)), AWAY]


def session_rows(one: OldSession) -> list[list[str]]:
    """One for each subscription."""
    first = [str(one.away.line), shown(one.away.client), str(one.waiting)]
    return [[*(["", "", ""] if place else first), shown(was),
             ", ".join(map(shown, new)) or NOTHING]
            for place, (was, new) in enumerate(one.becomes.items())]
