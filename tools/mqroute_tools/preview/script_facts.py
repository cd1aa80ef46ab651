"""What a script has: how many clients and publishes, and the lines that are wanted."""
from collections import Counter
from dataclasses import dataclass, field

from ..common.files import open_input
from ..losses.script_lines import shortened
from ..script.output import command_of


@dataclass
class ScriptFacts:
    clients: int = 0
    publishes: int = 0
    published: Counter[str] = field(default_factory=Counter)  # how often to each topic
    sets_list: int = 0  # the first line that sets an access list, or 0
    texts: dict[int, str] = field(default_factory=dict)  # of the wanted lines
    wanted_publishes: set[int] = field(default_factory=set)


def facts_of(path: str, wanted: set[int]) -> ScriptFacts:
    found, clients = ScriptFacts(), set()
    with open_input(path) as stream:
        for number, line in enumerate(stream, 1):
            command = command_of(line) or {}
            do = command.get("do")
            if do == "connect":
                clients.add(str(command.get("client")))
            elif do == "publish":
                found.publishes += 1
                found.published[str(command.get("topic"))] += 1
            elif do == "acl":
                found.sets_list = found.sets_list or number
            if number in wanted:
                found.texts[number] = shortened(line)
                found.wanted_publishes.update([number] if do == "publish" else [])
    found.clients = len(clients)
    return found
