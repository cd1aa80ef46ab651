"""A script in which some clients use new names and the others old ones, and a bridge carries each
message over: what it is sent in a run of mqroute it publishes under the other name."""
import fnmatch
from collections.abc import Iterable

from ..common.exit_status import Fault
from ..common.files import at
from ..script.commands import connect_command
from ..script.oracle import Oracle, OracleFault
from ..script.output import Answer, Command
from ..script.strict_json import NoJson, read
from .added_client import refuse_taken
from .filters import Levels, is_wild, levels, text_of
from .remarks import chained
from .script_translation import Moved, NewScript, text_of_command
from .topic_plan import Plan, read_text

CARRIED = ("payload", "qos", "retain", "expiry")


def moved_clients(name: str) -> Moved:
    """By a file with a client id on each line, in which * stands for any text."""
    wanted = [line.strip() for line in read_text(name).split("\n")]
    globs = [line for line in wanted if line and not line.startswith("#")]
    return lambda client: isinstance(client, str) and any(
        fnmatch.fnmatchcase(client, glob) for glob in globs)


def refuse_chains(plan: Plan) -> None:
    """Raises Fault where a new name is taken for an old one: a bridge would carry it on."""
    for pair in chained(plan):
        raise Fault(f"{at(plan.name, pair.rule.line)}: {pair.words}: old and new names can't be in "
                    "use at once")


def old_name(plan: Plan, new: Levels) -> Levels | None:
    """The one topic with this new name, or None where there are several or none."""
    for rule in plan.rules:
        back = rule.back(new) if rule.moves else None
        if back is None or any(map(is_wild, back)):
            continue
        if plan.rule_for(back) is rule and plan.new_name(back) == new:
            return back
    return None


def other_name(plan: Plan, topic: str) -> str | None:
    """The name under which a bridge publishes what came under this one."""
    name = levels(topic)
    rule = plan.rule_for(name)
    other = plan.new_name(name) if rule is not None and rule.moves else old_name(plan, name)
    return None if other in (None, name) else text_of(other or ())


def both_sides(plan: Plan) -> list[str]:
    """The filters that a bridge subscribes to."""
    rules = [rule for rule in plan.rules if rule.moves]
    return list(dict.fromkeys(
        text_of(side) for rule in rules for side in (rule.from_filter, rule.to_filter)))


class Bridge:
    def __init__(self, plan: Plan, client: str, user: str | None, acl: str | None) -> None:
        refuse_chains(plan)
        self.plan, self.client, self.user = plan, client, user
        self.oracle = Oracle(acl=acl)

    def beginning(self) -> list[Command]:
        """It connects and subscribes to both sides of each rule."""
        return [connect_command(self.client, self.user),
                *({"do": "subscribe", "client": self.client, "filter": wanted, "qos": 2,
                   "no_local": True, "rap": True} for wanted in both_sides(self.plan))]

    def carry(self, made: NewScript) -> int:
        """Puts its lines into the script: before the first line, and behind each that it is sent
        something at. How many there are."""
        refuse_taken(made.old, self.client, "the bridge otherwise, by --bridge")
        try:
            begin = [text_of_command(command) for command in self.beginning()]
            self.fed(begin)
            count = len(begin)
            for place, lines in enumerate(made.lines):
                carried = [text_of_command(command) for command in self.carried(self.fed(lines))]
                self.fed(carried)
                made.lines[place] = lines + carried
                count += len(carried)
        except OracleFault as fault:
            raise Fault(str(fault)) from fault
        finally:
            self.oracle.close()
        made.lines[:1] = [begin + lines for lines in made.lines[:1]]
        return count

    def fed(self, lines: list[bytes]) -> list[Answer]:
        """What mqroute answers to lines; an invalid line changes nothing."""
        found: list[Answer] = []
        for line in lines:
            try:
                command = read(line)
            except NoJson:
                continue
            if isinstance(command, dict):
                found += self.oracle.answers(command)
        return found

    def carried(self, answers: Iterable[Answer]) -> Iterable[Command]:
        for copy in answers:
            mine = copy.get("client") == self.client and "topic" in copy
            other = other_name(self.plan, copy["topic"]) if mine else None
            if other is not None:
                given = {name: copy[name] for name in CARRIED if copy.get(name)}
                yield {"do": "publish", "client": self.client, "topic": other} | given
