"""What a run of many cases says: those that differ, and a table by section."""
from collections import Counter
from collections.abc import Iterator
from typing import Any

from ..common.messages import counted
from ..common.tables import shown, table
from ..common.test_results import Outcome as Tested, Result, tap_lines
from ..common.texts import json_text
from .cases import Section
from .corpus_run import CaseResult, Outcome
from .refused_lines import shown as reasons_shown

SHOWN = (Outcome.AGREES, Outcome.FREE, Outcome.KNOWN, Outcome.DIFFERS, Outcome.LEFT_OUT)
TESTED = {Outcome.AGREES: Tested.PASSED, Outcome.FREE: Tested.PASSED, Outcome.KNOWN: Tested.SKIPPED,
          Outcome.DIFFERS: Tested.FAILED, Outcome.LEFT_OUT: Tested.SKIPPED}


def as_text(result: CaseResult) -> str:
    """A case that differs, with both sides."""
    return "\n".join([result.case.about(), *result.lines(), ""])


def as_object(result: CaseResult) -> dict[str, Any]:
    case = result.case
    return {"section": case.section, "case": case.name, "outcome": result.outcome.value,
            "why": result.why, "says": case.says, "sections": list(case.sections),
            "seconds": round(result.seconds, 3), "not_sent": dict(result.not_sent),
            "differences": [{"line": one.line, "texts": [text.strip() for text in one.texts]}
                            for one in result.differences]}


def as_test(result: CaseResult) -> Result:
    texts = {Outcome.DIFFERS: as_text(result).rstrip("\n"), Outcome.LEFT_OUT: result.why,
             Outcome.KNOWN: "known: it differs as it is stored"}
    return Result(result.case.section, result.case.name, TESTED[result.outcome],
                  texts.get(result.outcome, result.why), result.seconds)


def as_tests(results: list[CaseResult]) -> Iterator[Result]:
    """Each case; behind it, as skipped, what of it wasn't sent."""
    for result in results:
        yield as_test(result)
        if result.not_sent and result.outcome is not Outcome.LEFT_OUT:
            yield Result(result.case.section, f"{result.case.name}: lines not sent",
                         Tested.SKIPPED, reasons_shown(result.not_sent))


def as_tap(results: list[CaseResult]) -> list[str]:
    tests = list(as_tests(results))
    lines = [line for number, test in enumerate(tests, 1) for line in tap_lines(number, test)]
    return ["TAP version 13", f"1..{len(tests)}", *lines]


def counts(results: list[CaseResult]) -> list[str]:
    held = Counter(result.outcome for result in results)
    return [str(len(results)), *(str(held[outcome]) for outcome in SHOWN)]


def as_table(sections: list[Section], results: list[CaseResult]) -> str:
    """How many cases of each section came to what."""
    by_section = {section.name: [result for result in results
                                 if result.case.section == section.name] for section in sections}
    rows = [[shown(section.title), *counts(by_section[section.name])] for section in sections]
    head = ["section", "cases", *(outcome.value for outcome in SHOWN)]
    return table(head, [*rows, ["all", *counts(results)]])


def notes(results: list[CaseResult]) -> list[str]:
    """What was left out, each reason once; and what is known and no longer seen."""
    left_out = Counter(result.why for result in results if result.outcome is Outcome.LEFT_OUT)
    gone = [f"{result.case.path}: {result.why}" for result in results
            if result.why and result.outcome is not Outcome.LEFT_OUT]
    not_sent: Counter[str] = Counter()
    for result in results:
        not_sent += result.not_sent if result.outcome is not Outcome.LEFT_OUT else Counter()
    return [f"{counted(number, 'cases')} left out: {why}" for why, number in left_out.items()] \
        + gone + ([reasons_shown(not_sent)] if not_sent else [])


def as_json(results: list[CaseResult]) -> str:
    """A line for the end."""
    held = Counter(result.outcome.value for result in results)
    return json_text({"cases": len(results), **{one.value: held[one.value] for one in SHOWN}})
