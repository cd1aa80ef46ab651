"""replay --all: runs all cases of a folder on a live broker."""
import argparse
from pathlib import Path

from ..common.exit_status import Fault
from ..common.files import whole
from ..common.messages import numbered, say
from ..common.progress import Progress
from ..common.test_results import write_junit
from ..common.texts import json_text
from ..script.oracle import Oracle, OracleFault
from .cases import Section, read_sections
from .corpus_report import as_json, as_object, as_table, as_tap, as_tests, as_text, notes
from .corpus_run import CaseResult, CorpusRun, Outcome
from .options import BrokerOptions

HELD = "the broker isn't empty: it retains {}: cases with # may differ by these"


def save(result: CaseResult, folder: Path) -> None:
    file = folder / result.case.section / f"{result.case.name}.diff"
    file.parent.mkdir(parents=True, exist_ok=True)
    with whole(str(file)) as out:
        out.writelines((line + "\n").encode("utf-8") for line in result.lines())


def show(result: CaseResult, options: argparse.Namespace) -> None:
    differs = result.outcome is Outcome.DIFFERS
    if options.json:
        print(json_text(as_object(result)), flush=True)
    elif not options.tap and (differs or (options.verbose and result.differences)):
        print(as_text(result), flush=True)
    if differs and options.save:
        save(result, options.save)


def finish(sections: list[Section], results: list[CaseResult],
           options: argparse.Namespace) -> None:
    if options.tap:
        print("\n".join(as_tap(results)), flush=True)
    elif options.json:
        print(as_json(results), flush=True)
    else:
        print(as_table(sections, results), flush=True)
    for note in notes(results):
        say(note)
    if options.junit:
        write_junit(options.junit, as_tests(results))


def run_all(options: argparse.Namespace) -> int:
    for folder in options.known:
        if not folder.is_dir():
            raise Fault(f"there is no folder {folder}")
    sections = list(read_sections(options.all))
    cases = [case for section in sections for case in section.cases]
    results: list[CaseResult] = []
    progress = Progress("case")
    try:
        with Oracle(note=say) as oracle:
            run = CorpusRun(BrokerOptions.of(options), oracle, options.start, options.known)
            for number, result in enumerate(run.results(cases), 1):
                progress.clear()
                show(result, options)
                results.append(result)
                progress.at(number + 1, len(cases))
            remarks = run.remarks()
    except OracleFault as fault:
        raise Fault(str(fault)) from fault
    finally:
        progress.clear()
        if results:
            finish(sections, results, options)
    for what, count in remarks.items():
        say(numbered(what, count))
    if run.held:
        say(HELD.format(", ".join(run.held[:5])))
    return status(results)


def status(results: list[CaseResult]) -> int:
    outcomes = {result.outcome for result in results}
    if Outcome.DIFFERS in outcomes:
        return 1
    if outcomes <= {Outcome.LEFT_OUT}:
        raise Fault("no case was run")
    return 0
