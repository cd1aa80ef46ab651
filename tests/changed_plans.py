"""Two lists compared through a random plan by mqroute-acl, beside a test of every client, user and
topic (docs/definitions/plans.md, as plainly as it can be said)."""
import json
import pathlib
from typing import NamedTuple

from plain_lists import OwnRules, deciding, filter_matches

PARTS = ["a", "b", "c1", "u1", "$s"]


class Rule(NamedTuple):
    line: int
    act: str
    left: list[str]
    right: list[str]

    def takes(self, topic):
        return filter_matches(plain(self.left), topic)

    def new_name(self, topic):
        if self.act != "->":
            return topic if self.act == "keep" else None
        levels = topic.split("/")
        new = []
        for level in self.right:
            if level == "#":
                new += levels[len(self.left) - 1:]
            else:
                new.append(levels[self.left.index(level)] if level.startswith("+") else level)
        return "/".join(new) or None


def plain(side):
    return "/".join("+" if level.startswith("+") else level for level in side)


def renamed(plan, topic):
    """The new name of a topic, and the line of the rule that decides about it."""
    for rule in plan:
        if rule.takes(topic):
            return rule.new_name(topic), rule.line
    if any(rule.act == "->" and filter_matches(plain(rule.right), topic) for rule in plan):
        return None, None
    return topic, None


def random_rule(chance, line):
    left = [chance.choice([*PARTS, f"+n{place}", f"+n{place}"])
            for place in range(chance.randint(1, 3))]
    if chance.random() < 0.4:
        left[-1] = "#"
    act = chance.choice(["->", "->", "->", "keep", "none"])
    captures = [level for level in left if level.startswith("+")]
    right = [chance.choice([*PARTS, "new", *captures]) for _ in range(chance.randint(0, 2))]
    right.insert(0, chance.choice(["new", "a", "$s"]))
    if left[-1] == "#" and chance.random() < 0.7:
        right.append("#")
    return Rule(line, act, left, right)


def line_of(rule):
    left, right = "/".join(rule.left), "/".join(rule.right)
    return f"{left} -> {right}" if rule.act == "->" else f"{rule.act} {left}"


def number(line):
    return line and line["line"]


class Case(NamedTuple):
    """What one change is, but for its client and topic."""
    user: str | None
    access: str
    change: str
    dollar: bool
    old: int | None
    new: int | None
    rule: int | None


def changed(plan, old, new, client, user, topic, access):
    """What changes, if something does, and the new name."""
    name, rule = renamed(plan, topic)
    if name is None:
        return None, None
    rows = [deciding(OwnRules, rows, client, user, text, access)[0]
            for rows, text in ((old, topic), (new, name))]
    before, after = (row is not None and row.access != "deny" for row in rows)
    if before == after:
        return None, name
    lines = [row and row.number for row in rows]
    return Case(user, access, "gained" if after else "lost", topic.startswith("$"),
                *lines, rule), name


def named_class(old, new, user):
    """The user name, or `*` for one of those without lines of their own."""
    owners = {row.user for row in [*old, *new] if not row.is_pattern}
    return user if user is None or user in owners else "*"


def faults_of_plan(run, folder, chance, old, new, cases):
    plan = [random_rule(chance, line) for line in range(1, chance.randint(1, 4) + 1)]
    text = "\n".join(map(line_of, plan))
    pathlib.Path(folder, "plan").write_text(text)
    words = ["compare", "--rules", "own", "--plan", "plan", "--json", "old.acl", "new.acl"]
    done = run(words, folder)
    listed = [json.loads(line) for line in done.stdout.splitlines()]
    if done.returncode != (1 if listed else 0) or done.stderr:
        yield f"compare --plan: status {done.returncode}: {done.stderr}{text}"
        return
    found = set()
    for one in listed:
        case, name = changed(plan, old, new, one["client"], one["user"], one["topic"],
                             one["access"])
        shown = Case(one["user"], one["access"], one["change"], one["topic"].startswith("$"),
                     number(one["old"]), number(one["new"]), number(one["rule"]))
        if case != shown or name != one["new_topic"]:
            yield f"compare --plan: {one} isn't so: {case}, {name}\n{text}"
        found.add(shown._replace(user=named_class(old, new, one["user"])))
    for client, user, topic in cases:
        for access in ("read", "write"):
            case, _ = changed(plan, old, new, client, user, topic, access)
            if case and case._replace(user=named_class(old, new, user)) not in found:
                yield f"compare --plan: missing: {case} {client} {topic}\n{text}"
                return
