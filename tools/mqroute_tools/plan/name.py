"""plan name: what becomes of topics, filters and shared subscriptions."""
import argparse

from ..common.exit_status import Fault
from ..common.files import at
from ..common.tables import columns, shown
from ..common.texts import quoted
from .filter_words import NOTHING, Judged, verdict_words
from .filters import Levels, is_name, levels, split_share, text_of
from .report import write
from .topic_plan import Plan, read_plan
from .translator import Translator

NO_NAME = "(none)"
Rows = list[list[str]]


def run(options: argparse.Namespace) -> int:
    plan = read_plan(options.plan)
    filters: list[Levels] = []
    for text in options.text:
        parts = split_share(text)
        if parts is None:
            raise Fault(f"{quoted(text)} is neither a topic nor a filter")
        filters += [] if is_name(levels(text)) else [parts[1]]
    known = Judged(Translator(plan), list(dict.fromkeys(filters)))
    rows: Rows = []
    odd = False
    for text in options.text:
        if is_name(levels(text)):
            found = topic_row(plan, text)
            odd |= found[0][1] == NO_NAME
        else:
            found = filter_rows(known, text)
            odd |= found[0][2] != ""
        rows += found
    write("".join(line + "\n" for line in columns(rows)))
    return int(odd)


def topic_row(plan: Plan, text: str) -> Rows:
    rule, new = plan.rule_for(levels(text)), plan.new_name(levels(text))
    by = "no rule is about it" if new is not None else "the plan takes this name for its own"
    if rule is not None:
        by = f"{at(plan.name, rule.line)}  {shown(rule.text)}"
    return [[shown(text), NO_NAME if new is None else shown(text_of(new)), by]]


def filter_rows(known: Judged, text: str) -> Rows:
    share, wanted = split_share(text) or ("", ())
    made = known.translations[wanted]
    first, *others = [share + text_of(new) for new in made.new] or [NOTHING]
    rows = [[shown(text), shown(first),
             verdict_words(made, known.verdicts[wanted], share != "")]]
    rows += [["", shown(new), ""] for new in others]
    if made.wider is not None:
        rows.append(["", f"or {shown(share + text_of(made.wider))}", known.wider_words(wanted)])
    return rows
