"""What the tests of plans share: all names of few levels, random plans, and the new name by a
reading of its own, which has regular expressions where the tool has levels."""
import itertools
import random
import re

from worked import HERE  # noqa: F401  it shows where the tools are
from mqroute_tools.common.exit_status import Fault
from mqroute_tools.plan.topic_plan import Plan, plan_of
from mqroute_tools.script.topics import matches

LEVELS = ["a", "b", "", "$s"]
NAMES = ["/".join(parts) for count, levels in ((1, [*LEVELS, "x", "$x"]), (2, [*LEVELS, "x", "$x"]),
                                               (3, [*LEVELS, "x"]), (4, ["a", "b", "", "x"]))
         for parts in itertools.product(levels, repeat=count) if parts != ("",)]


def random_filter(chance: random.Random, most: int = 3) -> str:
    while True:
        parts = [chance.choice([*LEVELS, "+", "+"]) for _ in range(chance.randint(1, most))]
        if chance.random() < 0.4:
            parts[-1] = "#"
        if parts != [""]:
            return "/".join(parts)


def random_rule(chance: random.Random) -> str:
    left = [chance.choice([*LEVELS, "+p", "+q"]) for _ in range(chance.randint(1, 3))]
    if left.count("+p") > 1 or left.count("+q") > 1:
        left = ["+p", "a"]
    captures = [level for level in left if level.startswith("+")]
    right = [chance.choice(LEVELS),
             *(chance.choice(LEVELS + captures * 2) for _ in range(chance.randint(0, 2)))]
    if chance.random() < 0.4:
        left.append("#")
        right += ["#"] if chance.random() < 0.85 else []
    word = chance.random()
    if word < 0.25:
        return ("none " if word < 0.12 else "keep ") + "/".join(left)
    return "/".join(left) + " -> " + "/".join(right)


def random_plan(chance: random.Random) -> Plan:
    lines: list[str] = []
    while len(lines) < 4 and (not lines or chance.random() < 0.8):
        line = random_rule(chance)
        try:
            plan_of(line)
        except Fault:
            continue
        lines.append(line)
    return plan_of("\n".join(lines))


def pattern_of(side: str) -> re.Pattern[str]:
    """A group for each capture, and one for what a `#` stands for, with the `/` before it."""
    found = ""
    for place, level in enumerate(side.split("/")):
        slash = "/" if place else ""
        if level == "#":
            found += f"(?P<rest>(?:{slash}[^/]*(?:/[^/]*)*)?)" if place else "(?P<rest>.*)"
        elif level.startswith("+"):
            found += f"{slash}(?P<{level[1:] or '_'}>[^/]*)"
        else:
            found += slash + re.escape(level)
    return re.compile(found)


def is_about(side: str, topic: str) -> re.Match[str] | None:
    if topic.startswith("$") and side[0] in "+#":
        return None
    return pattern_of(side).fullmatch(topic)


def new_name(lines: list[str], topic: str) -> str | None:
    """By the lines of a plan whose captures all have names."""
    rights = []
    for line in lines:
        left, arrow, right = line.partition(" -> ")
        word, _, side = line.partition(" ")
        rights += [right] if arrow else [side] if word == "keep" else []
        found = is_about(left if arrow else side, topic)
        if not found:
            continue
        if not arrow:
            return topic if word == "keep" else None
        made = re.sub(r"\+(\w+)", lambda at: found[at[1]], right)
        if made.endswith("#"):
            made = made[:-2] + ("/" if left == "#" else "") + found["rest"]
        return made or None
    taken = any(matches(re.sub(r"\+\w+", "+", right), topic) for right in rights)
    return None if taken else topic
