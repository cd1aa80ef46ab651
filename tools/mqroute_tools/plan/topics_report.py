"""What becomes of a script's topics."""
from collections import defaultdict
from typing import NamedTuple

from ..common.tables import columns, shown
from .filters import Levels, is_name, levels, text_of
from .report import Report
from .script_translation import Use, Uses
from .topic_plan import Plan

HEAD = ["line", "rule", "topics", "publishes", "first"]
KEPT, TAKEN = "keep their names", "no new name: the plan takes these names for its own"
Key = tuple[int, str]  # the line of a rule, or 0, and its text


class Topic(NamedTuple):
    text: str
    use: Use
    new: Levels | None


def topics_by_rule(plan: Plan, topics: Uses) -> dict[Key, list[Topic]]:
    found: defaultdict[Key, list[Topic]] = defaultdict(list)
    for text, use in topics.items():
        name = levels(text)
        if not is_name(name):
            continue
        rule, new = plan.rule_for(name), plan.new_name(name)
        key = (rule.line, rule.text) if rule else (0, KEPT if new else TAKEN)
        found[key].append(Topic(text, use, new))
    return found


def report_topics(report: Report, plan: Plan, script: str, topics: Uses) -> None:
    by_rule = topics_by_rule(plan, topics)
    rows = [HEAD]
    for (line, text), found in sorted(by_rule.items(), key=lambda item: (not item[0][0], item[0])):
        publishes = sum(topic.use.lines for topic in found)
        rows.append([str(line or ""), shown(text), str(len(found)), str(publishes),
                     shown(found[0].text)])
        report.objects.append({"kind": "topics", "rule": line or None, "topics": len(found),
                               "publishes": publishes, "first": found[0].text})
    report.blank()
    report.lines += [f"Topics of {script}", *columns(rows, (0, 2, 3))]
    unused = [str(rule.line) for rule in plan.rules if (rule.line, rule.text) not in by_rule]
    if unused:
        word = "line" if len(unused) == 1 else "lines"
        report.lines.append(f"{word} with no topic there: {', '.join(unused)}")
    report.blank()
    report_names(report, script, [topic for found in by_rule.values() for topic in found])


def report_names(report: Report, script: str, topics: list[Topic]) -> None:
    """Topics without a new name, and topics with the same one."""
    becomes: defaultdict[Levels, list[Topic]] = defaultdict(list)
    for topic in topics:
        if topic.new is None:
            report.remark(script, topic.use.first, f"{shown(topic.text)} has no new name",
                          topic=topic.text)
        else:
            becomes[topic.new].append(topic)
    for new, found in becomes.items():
        if len(found) > 1:
            names = " and ".join(shown(topic.text) for topic in found)
            text = text_of(new)
            report.remark(script, found[1].use.first, f"{names} become one topic, {shown(text)}",
                          topic=text)
    report.blank()
