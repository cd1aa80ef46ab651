"""The answers as a table on a terminal."""
from collections import defaultdict

from ..common.tables import shown, table
from .causes import Answer, Cause
from .lines import Question
from .references import resolved

MOST_NAMED = 4  # clients of one row
HEAD = ["client", "copy", "why"]
INDENT = "    "


def head(asked: Question) -> str:
    publish = asked.publish
    more = [f"QoS {publish.get('qos', 0)}"]
    more += ["RETAIN"] if publish.get("retain") else []
    more += [f"expiry {publish['expiry']} s"] if "expiry" in publish else []
    return (f"{asked.place}: {shown(publish['client'])} publishes {shown(publish['topic'])} "
            f"({', '.join(more)})\n")


def report(asked: Question, answers: list[Answer]) -> str:
    found = [(answer.client, cause) for answer in answers for cause in answer.causes]
    found.sort(key=lambda pair: rank(asked.line, pair[1]))
    text = (rows_of_all(asked, found) if asked.client is None else
            rows_of_one(asked, [cause for _, cause in found]))
    return head(asked) + text + "\n"


def rows_of_all(asked: Question, found: list[tuple[str, Cause]]) -> str:
    """Clients of whom the same is said stand in one row."""
    rows: defaultdict[tuple[int, str], dict[str, Cause]] = defaultdict(dict)
    for client, cause in found:
        rows[cause.came, cause.words].setdefault(client, cause)
    called = asked.script.called
    return table(HEAD, ([named(list(row)), when(asked, came), resolved(
        words if len(row) > 1 else next(iter(row.values())).text(), called)]
        for (came, words), row in rows.items()))


def rows_of_one(asked: Question, found: list[Cause]) -> str:
    """With the details."""
    called = asked.script.called
    lines = table(HEAD, ([shown(asked.client or ""), when(asked, cause.came),
                          resolved(cause.text(), called)] for cause in found)).split("\n")
    for line, cause in enumerate(found, 1):
        details = (INDENT + resolved(detail, called) for detail in cause.details)
        lines[line] = "\n".join([lines[line], *details])
    return "\n".join(lines)


def rank(line: int, cause: Cause) -> tuple[bool, bool, bool]:
    """First the copies, then what concerns the clients."""
    return cause.came != line, not cause.came, not cause.concerned


def named(clients: list[str]) -> str:
    names = ", ".join(shown(client) for client in clients[:MOST_NAMED])
    more = len(clients) - MOST_NAMED
    return f"{names} and {more} more" if more > 0 else names


def when(asked: Question, came: int) -> str:
    return "no" if not came else "yes" if came == asked.line else asked.script.called(came)
