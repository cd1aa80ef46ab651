"""The publishes of a script that mqroute-acl counts (--script), beside a count of each topic."""
import collections
import json
import pathlib

from plain_lists import MosquittoRules, Row, deciding, is_asked

NO_PUBLISHES = ["x", "", '{"do":"stat"}', '{"do":"publish","client":"c","topic":"a/+"}']


def rest_matches(rules, is_pattern, wanted, levels):
    """Whether these levels of a filter match those of a topic, for some client."""
    if not wanted or wanted[0] == "#":
        return bool(wanted) or not levels
    is_mark = is_pattern and wanted[0] in ("%c", "%u")
    if not levels or not (is_mark or wanted[0] in ("+", levels[0])):
        return False
    return rest_matches(rules, is_pattern, wanted[1:], levels[1:]) or (
        is_mark and rules is MosquittoRules and len(levels) > 1
        and rest_matches(rules, is_pattern, wanted, levels[1:]))


def may_match(rules, row, topic):
    """Whether the row covers the topic for some client."""
    wanted, levels = row.filter.split("/"), topic.split("/")
    if topic.startswith("$") and wanted[0] in ("+", "#"):
        return False
    return rest_matches(rules, row.is_pattern, wanted, levels)


def counts_of(rules, topics, rows):
    """How many publishes are to topics that all of the rows may cover, and to how many topics."""
    found = [count for topic, count in topics.items()
             if all(may_match(rules, row, topic) for row in rows)]
    return sum(found), len(found)


def random_publishes(chance, names):
    """A script, and how many of its publishes are to each topic."""
    topics = collections.Counter(chance.choice(names) for _ in range(chance.randint(0, 12)))
    lines = [json.dumps({"do": "publish", "client": "c", "topic": topic})
             for topic in topics.elements()]
    lines += [*chance.sample(NO_PUBLISHES, 2), '{"do":"connect","client":"c"}']
    chance.shuffle(lines)
    return "\n".join(lines), topics


def rows_at(lines, lists):
    """The rows of the lines that decide in these lists."""
    return [row for line, rows in zip(lines, lists) for row in rows
            if line is not None and row.number == line["line"]]


def is_decided(rules, rows, line, case, access):
    row, _ = deciding(rules, rows, *case, access)
    return (row and row.number) == (line and line["line"])


def faults_of_shown(shown, lines, topics, rows, rules, lists, asked_about):
    counts = shown["publishes"], shown["topics"]
    if counts != counts_of(rules, topics, rows):
        yield f"{shown} counts {counts}, not {counts_of(rules, topics, rows)}"
    meant = {case[2] for case in asked_about if case[2] in topics and all(
        is_decided(rules, of, line, case, shown["access"]) for of, line in zip(lists, lines))}
    if len(meant) > shown["topics"]:
        yield f"{shown} is about {sorted(meant)}"


def shown_by(run, folder, words):
    done = run([*words, "--script", "counted.jsonl"], folder)
    shown = [json.loads(line) for line in done.stdout.splitlines()]
    return [each for each in shown if "topic" in each]


def faults_of_counts(rules, run, folder, chance, names, wanted, lists, asked_about):
    """Of the differences of both lists, and of who may by the first what the filter matches."""
    script, topics = random_publishes(chance, names)
    pathlib.Path(folder, "counted.jsonl").write_text(script)
    for shown in shown_by(run, folder, ["compare", *rules.words, "--json", "old.acl", "new.acl"]):
        lines = [shown["old"], shown["new"]]
        yield from faults_of_shown(
            shown, lines, topics, rows_at(lines, lists), rules, lists, asked_about)
    asked = Row(0, True, None, "readwrite", wanted)
    covered = [case for case in asked_about if is_asked(rules, wanted, *case)]
    words = ["who", *rules.words, "--json", "old.acl"]
    access = chance.choice(["read", "write"])
    for shown in shown_by(run, folder, [*words, f"--access={access}", wanted]):
        rows = [asked, *rows_at([shown["line"]], lists[:1])]
        yield from faults_of_shown(
            shown, [shown["line"]], topics, rows, rules, lists[:1], covered)
