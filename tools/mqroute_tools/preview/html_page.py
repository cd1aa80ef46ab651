"""A preview as one page of HTML, which loads nothing and runs nothing."""
import argparse
import time
from collections.abc import Iterator

from ..common.files import whole
from ..common.messages import counted, named
from ..common.page_frame import ENDING, beginning
from ..losses.html_escape import escaped
from ..plan.kept import AWAY as STAYS_AWAY, STAYS
from .findings import KeptNames, Preview
from .list_commit import commit_of
from .page_rows import Rows
from .page_style import STYLE
from .share_picture import picture
from .verdict import verdict
from .words import AWAY, CARRIED, RETAINED, summary, tried

TITLE = "A new access list: who loses, who gains, what is newly allowed"
PLAN_TITLE = "New topics and a new access list: who loses, who gains, what is newly allowed"
LEGEND = ("<p class='legend'><i class='key kept'></i> stays <i class='key lost'></i> lost "
          "<i class='key gained'></i> gained: of the messages that each user gets now, and would "
          "gain</p>\n")


def title_of(options: argparse.Namespace) -> str:
    return options.title or (TITLE if options.plan is None else PLAN_TITLE)


def write(name: str, found: Preview, title: str) -> None:
    """Beside its place, and then renamed. Raises OSError where it can't be written."""
    with whole(name) as out:
        out.writelines(part.encode("utf-8") for part in parts(found, title))


def parts(found: Preview, title: str) -> Iterator[str]:
    rows = Rows(found)
    yield beginning(escaped(title), STYLE)
    yield (f"<header><h1>{escaped(title)}</h1>\n{about(found)}{checked(found)}"
           f"{verdict_of(found)}</header>\n")
    for rights, name, head, grants in (
            (found.granted, "granted", "Newly allowed", (found.proposed, found.current)),
            (found.taken, "taken", "No longer allowed", (found.current, found.proposed))):
        if rights:
            caption = (f"{counted(len(rights), 'rights', ',')} that {file(grants[0])} grants and "
                       f"{file(grants[1])} doesn't, whether or not anybody tried")
            yield section(head, rows.rights(name, rights, caption))
    if found.users:
        drawn = any(row.lost or row.gained for row in found.users)
        yield section("Who loses, who gains",
                      (LEGEND + picture(found.users) if drawn else "") + rows.users())
    if found.refused:
        yield section("Whose publishes are refused, whose no longer", rows.refused())
    if found.subscriptions:
        yield section("Subscriptions that can receive nothing any more", rows.subscriptions())
    if found.carried:
        yield section(CARRIED, rows.carried())
    if found.kept:
        yield from kept_sections(found.kept, rows)
    if found.remarks:
        yield section(f"New remarks on {file(found.proposed)}", rows.remarks())
    yield f"<p id='reload'>{escaped(found.reload.words())}</p>\n"
    yield f"<p id='summary'>{escaped(summary(found))}</p>\n{ENDING}"


def kept_sections(names: KeptNames, rows: Rows) -> Iterator[str]:
    """What the broker has under old names."""
    kept = names.kept
    notes = f"<p class='unknown'>{escaped(kept.unknown())}</p>\n"
    if kept.moves:
        words = f"<p>{escaped(f'{STAYS} {names.hint()}')}</p>\n"
        yield section(RETAINED, words + rows.retained(kept) + notes)
    if kept.sessions:
        yield section(AWAY, f"<p>{escaped(STAYS_AWAY)}</p>\n{rows.away(kept)}{notes}")


def section(head: str, inside: str) -> str:
    return f"<section><h2>{head}</h2>\n{inside}</section>\n"


def file(name: str) -> str:
    return f"<bdi class='file'>{escaped(named(name))}</bdi>"


def about(found: Preview) -> str:
    """Which lists, on what, and when."""
    lists = [file(name) + committed(name) for name in (found.proposed, found.current)]
    sources = ", ".join(map(file, found.sources))
    now = time.strftime("%Y-%m-%d %H:%M")
    plan = f", topics renamed by {file(found.plan)}{committed(found.plan)}" if found.plan else ""
    return (f"<p class='about'>{' in place of '.join(lists)}{plan}, tried on {sources}: "
            f"{tried(found)}. <time datetime='{now.replace(' ', 'T')}'>{now}</time></p>\n")


def committed(name: str) -> str:
    commit = commit_of(name)
    return f" (commit {escaped(commit)})" if commit else ""


def checked(found: Preview) -> str:
    """Whether the current list was in force."""
    if found.check is None:
        return ""
    said = " ".join(line.strip() for line in found.check.lines())
    kind = "check" if found.check.holds() else "check loss"
    return f"<p class='{kind}'>{escaped(said)}</p>\n" + (
        listed(found.said, "said") if found.said else "")


def verdict_of(found: Preview) -> str:
    said = verdict(found)
    kind = "loss" if any(one.is_loss for one in said) else "other" if found.changes() else "none"
    sentences = " ".join(
        (f"<b><bdi>{escaped(one.strong)}</bdi></b> " if one.strong else "") + escaped(one.rest)
        for one in said)
    return f"<p id='verdict' class='{kind}'>{sentences}</p>\n"


def listed(texts: list[str], kind: str) -> str:
    items = "".join(f"<li>{escaped(text)}</li>" for text in texts)
    return f"<ul class='{kind}'>{items}</ul>\n"
