"""A comparison as one page of HTML, which loads nothing and runs nothing."""
from collections.abc import Iterator

from ..common.files import whole
from ..common.page_frame import ENDING, beginning
from .acl_verdicts import Decided
from .bar_chart import picture
from .findings import CauseSum, Findings, Subject, Totals
from .html_escape import escaped, marked, visible
from .page_style import STYLE
from .report_rows import causes_of
from .script_lines import lines_of, script_lines


def write(name: str, found: Findings, script: str, before: str, after: str) -> None:
    shown = [place for row in found.refused for place in row.lines or ()]
    shown += [place for _, cause in causes_of(found.copies) for place in cause.lines]
    wanted = {number for place in shown for number in (place.line, place.publish)}
    texts = lines_of(script, wanted)
    with whole(name) as out:
        out.writelines(part.encode("utf-8") for part in parts(found, texts, script, before, after))


def parts(found: Findings, texts: dict[int, str], script: str, before: str,
          after: str) -> Iterator[str]:
    yield (beginning("Who loses what", STYLE)
           + "<h1>Who loses what</h1>\n"
           f"<p class='files'>Script {file(script)}, before {file(before)}, "
           f"after {file(after)}</p>\n")
    yield totals(found.totals)
    if not (found.copies or found.refused):
        yield "<p id='nothing'>Nothing changes.</p>\n"
    if found.copies:
        yield ("<section><h2>Who loses, who gains</h2>\n"
               "<p class='legend'><b class='lost'>■</b> lost <b class='gained'>■</b> gained "
               f"<b class='changed'>■</b> changed: copies by {found.by} and topic</p>\n"
               f"{picture(found.copies)}</section>\n")
        yield why(found.causes)
        yield from copies(found, texts)
    if found.refused:
        yield from refused(found, texts)
    yield ENDING


def file(name: str) -> str:
    return f"<bdi class='file'>{escaped(name)}</bdi>"


def totals(numbers: Totals) -> str:
    names = {"before": "copies before", "after": "copies after",
             "refused_before": "lines refused before", "refused_after": "lines refused after"}
    items = "".join(
        f"<div class='card {key}'><b id='{key}'>{number}</b>"
        f"<span>{names.get(key, key)}</span></div>" for key, number in vars(numbers).items())
    return f"<section id='totals'>{items}</section>\n"


def why(sums: list[CauseSum]) -> str:
    rows = ""
    for one in sums:
        counts = "".join(f"<td class='{what}'>{count or ''}</td>" for what, count in (
            ("lost", one.lost), ("gained", one.gained), ("changed", one.changed)))
        rows += f"<tr><td class='because'><bdi>{escaped(one.because)}</bdi></td>{counts}</tr>\n"
    return ("<section><h2>Causes</h2>\n<table id='causes'><thead><tr>"
            "<th>because</th><th>lost</th><th>gained</th><th>changed</th></tr></thead>"
            f"<tbody>\n{rows}</tbody></table></section>\n")


def cells(kind: str, values: dict[str, str | int]) -> str:
    spans = "".join(f"<span class='{name}'>{value}</span>" for name, value in values.items())
    return f"<summary class='{kind}'>{spans}</summary>"


def head(kind: str, who: str | None, names: list[str]) -> str:
    names = [who or ""] + (["clients"] if who == "user" else []) + names
    spans = (f"<span class='{'who' if name == who else name.replace(' ', '-')}'>{name}</span>"
             for name in names)
    return f"<div class='{kind} head'>{''.join(spans)}</div>\n"


def first_cells(row: Subject, clients: int | None) -> dict[str, str | int]:
    found: dict[str, str | int] = {"who": f"<bdi>{marked(row)}</bdi>"}
    if clients is not None:
        found["clients"] = clients
    return found | {"topic": f"<bdi>{visible(row.topic)}</bdi>"}


def copies(found: Findings, texts: dict[int, str]) -> Iterator[str]:
    kind = f"copies-{found.by}"
    yield ("<section id='copies'><h2>Copies</h2>\n"
           "<p class='note'>Each row opens, down to lines of the script.</p>\n"
           + head(kind, found.by, ["topic", "what", "copies", "because", "first line"]))
    for row, cause in causes_of(found.copies):
        values = first_cells(row.subject, cause.clients)
        values |= {"what": f"<i class='{cause.what}'>{cause.what}</i>", "copies": cause.copies,
                   "because": f"<bdi>{escaped(cause.because())}</bdi>{by(cause.decided)}",
                   "first-line": cause.lines[0].line}
        lines = script_lines(cause.lines, cause.copies, "copies", texts)
        yield f"<details>{cells(kind, values)}{decided(cause.decided)}{lines}</details>\n"
    yield "</section>\n"


def refused(found: Findings, texts: dict[int, str]) -> Iterator[str]:
    kind = f"refused-{found.by}"
    yield ("<section id='refused'><h2>Refused</h2>\n"
           f"{head(kind, found.by, ['topic', 'before', 'after', 'why'])}")
    for row in found.refused:
        counts = row.refusals
        reasons = [f"{name} {count}" for name, count in sorted(counts.newly.items())]
        reasons += [f"no longer {name} {count}" for name, count in sorted(counts.no_longer.items())]
        values = first_cells(row.subject, row.subject.clients)
        values |= {"before": counts.before, "after": counts.after,
                   "why": escaped(", ".join(reasons) or "refused in both") + by(row.decided)}
        lines = script_lines(row.lines or [], row.lines_in_all, "lines", texts)
        yield f"<details>{cells(kind, values)}{decided(row.decided)}{lines}</details>\n"
    yield "</section>\n"


def by(lines: Decided | None) -> str:
    """The same in a row that isn't opened."""
    return f"<small><bdi>{escaped(lines.in_words())}</bdi></small>" if lines else ""


def decided(lines: Decided | None) -> str:
    """The lines of both access lists that decide it, where they were given."""
    if lines is None:
        return ""
    before, after = (escaped(one.in_words()) for one in (lines.before, lines.after))
    return (f"<div class='decided'><div>before: <code><bdi>{before}</bdi></code></div>"
            f"<div>after: <code><bdi>{after}</bdi></code></div></div>")
