"""Results of tests for other programs: JUnit's XML, and TAP."""
from collections.abc import Iterable
from dataclasses import dataclass
from enum import Enum
from itertools import groupby
from xml.sax.saxutils import escape, quoteattr

from .files import whole
from .texts import escaped, escaped_lines


class Outcome(Enum):
    PASSED = "passed"
    FAILED = "failed"
    ERROR = "error"  # it couldn't be tried
    SKIPPED = "skipped"


@dataclass(frozen=True)
class Result:
    suite: str
    name: str
    outcome: Outcome
    text: str = ""  # why, in lines
    seconds: float = 0


TAGS = {Outcome.FAILED: "failure", Outcome.ERROR: "error", Outcome.SKIPPED: "skipped"}


def attribute(text: str) -> str:
    return quoteattr(escaped_lines(text).replace("\n", " "))


def case_lines(result: Result) -> list[str]:
    head = (f'<testcase classname={attribute(result.suite)} name={attribute(result.name)} '
            f'time="{result.seconds:.3f}"')
    if result.outcome is Outcome.PASSED:
        shown = escape(escaped_lines(result.text))
        text = f"<system-out>{shown}</system-out>" if shown else ""
        return [f"  {head}>{text}</testcase>"]
    tag, first = TAGS[result.outcome], result.text.partition("\n")[0]
    return [f"  {head}>", f"    <{tag} message={attribute(first)}>"
            f"{escape(escaped_lines(result.text))}</{tag}>", "  </testcase>"]


def junit(results: Iterable[Result]) -> str:
    lines = ['<?xml version="1.0" encoding="UTF-8"?>', "<testsuites>"]
    for suite, cases in groupby(results, lambda result: result.suite):
        held = list(cases)
        counts = {outcome: sum(one.outcome is outcome for one in held) for outcome in Outcome}
        lines.append(
            f'<testsuite name={attribute(suite)} tests="{len(held)}" '
            f'failures="{counts[Outcome.FAILED]}" errors="{counts[Outcome.ERROR]}" '
            f'skipped="{counts[Outcome.SKIPPED]}" time="{sum(c.seconds for c in held):.3f}">')
        lines += [line for result in held for line in case_lines(result)]
        lines.append("</testsuite>")
    return "\n".join([*lines, "</testsuites>", ""])


def write_junit(name: str, results: Iterable[Result]) -> None:
    with whole(name) as file:
        file.write(junit(results).encode())


def tap_lines(number: int, result: Result) -> list[str]:
    """A line of the Test Anything Protocol, with what is wrong as comments behind it."""
    is_right = result.outcome in (Outcome.PASSED, Outcome.SKIPPED)
    why = escaped_lines(result.text).replace("\n", " ")
    note = f" # SKIP {why}" if result.outcome is Outcome.SKIPPED else ""
    name = escaped(f"{result.suite}/{result.name}").replace("#", "\\#")
    shown = [] if is_right else [f"# {escaped(line)}" for line in result.text.split("\n")]
    return [f"{'' if is_right else 'not '}ok {number} - {name}{note}", *shown]
