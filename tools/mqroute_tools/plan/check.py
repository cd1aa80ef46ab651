"""plan check: what is odd in a plan, and what becomes of a script and of an access list."""
import argparse

from .day_end import day_end, under
from .kept import kept_of
from .kept_report import report_kept
from .list_differences import ListText
from .list_translation import notes_on, translated
from .lists_report import Day, report_lists
from .remarks import remarks
from .report import Report, write
from .script_translation import NewScript, read_lines, rewritten
from .subscriptions_report import Subscriptions
from .topic_plan import read_plan, read_text
from .topics_report import report_topics
from .translator import Translator


def run(options: argparse.Namespace) -> int:
    plan, report = read_plan(options.plan), Report()
    for remark in remarks(plan):
        report.remark(plan.name, remark.line, remark.words)
    translator = Translator(plan)
    lines = [] if options.script is None else read_lines(options.script)
    acl = None if options.acl_file is None else read_text(options.acl_file)
    day = None
    if options.script is not None:
        end = day_end(lines, under(acl, options.acl_file))
        kept = kept_of(translator, end, acl is not None)
        report_kept(report, plan.name, options.script, kept)
        made = rewritten(translator, lines)
        report_script(report, translator, options.script, made)
        day = Day(options.script, list(made.names()))
    if acl is not None:
        new = None if options.new_acl_file is None else ListText(
            options.new_acl_file, read_text(options.new_acl_file))
        report_lists(report, translator, ListText(options.acl_file, acl), new, day)
    write(report.text(options.json))
    return int(report.odd)


def report_script(report: Report, translator: Translator, script: str, made: NewScript) -> None:
    """Its topics, its subscriptions, and the lists that it sets."""
    report_topics(report, translator.plan, script, made.topics)
    Subscriptions(translator, made).report(report, script)
    for text, number in made.lists.items():
        name = f"the list of line {number}"
        for note in notes_on(translator.plan, translated(translator, text, name), text, name):
            report.remark(script, number, f"line {note.line} of the list: {note.words}")
