"""The smallest script that still does what a greater one does: lines are left out,
names and fields made simpler."""
import json
from collections.abc import Callable, Iterator

from ..common.texts import ended_lines
from ..script.fresh_names import with_names
from ..script.output import Command

Script = list[Command]
Test = Callable[[Script], bool]
SESSION = ("session_expiry", "clean")  # MQTT 3.1.1 has one only with the other
OPTIONAL = {"connect": (*SESSION, "user"),
            "subscribe": ("handling", "id", "rap", "no_local", "qos"),
            "publish": ("expiry", "qos", "retain")}
SIMPLEST: dict[str, list[str | int]] = {
    "filter": ["x", "$x", "#", "+", "x/#", "$share/g/x", "$share/g/$x"],
    "topic": ["x", "$x"], "qos": [1], "payload": ["1"], "id": [1], "handling": [1]}
PLAIN_NAMES = {"x", "$x", "x/y"}
FEW = 8  # names that are tried in the place of another, the plainest


def connected(script: Script) -> Script:
    """The script without the lines of clients that aren't connected."""
    live: set[str] = set()
    kept = []
    for command in script:
        client = command.get("client", "")
        if command["do"] == "connect":
            live.add(client)
        elif client and client not in live:
            continue
        elif command["do"] == "disconnect":
            live.discard(client)
        kept.append(command)
    return kept


# Each of these gives simpler scripts, boldest first.

def with_fewer_lines(script: Script) -> Iterator[Script]:
    size = len(script) // 2
    while size:
        for at in range(len(script) - size, -1, -size):
            yield script[:at] + script[at + size:]
        size //= 2


def with_fewer_clients(script: Script) -> Iterator[Script]:
    """What one client does another does, in a connection that it has or in one that it makes."""
    names = sorted({command["client"] for command in script if "client" in command})
    for at, name in enumerate(names):
        for other in names[:at]:
            renamed = [command | {"client": other} if command.get("client") == name else command
                       for command in script]
            yield [now for now, then in zip(renamed, script)
                   if then.get("client") != name or then["do"] not in ("connect", "disconnect")]
            yield renamed


def first_names(script: Script) -> Iterator[Script]:
    """Clients named a, b, .. in their order."""
    names = list(dict.fromkeys(command["client"] for command in script if "client" in command))
    plain = dict(zip(names, "abcdefghijklmnopqrstuvwxyz"))
    if any(plain.get(name, name) != name for name in names):
        yield [command | {"client": plain.get(command["client"], command["client"])}
               if "client" in command else command for command in script]


def split_share(name: str) -> tuple[str, str]:
    """What stands before the filter of a shared subscription, and the filter."""
    parts = name.split("/", 2)
    shared = parts[0] == "$share" and len(parts) == 3
    return (f"$share/{parts[1]}/", parts[2]) if shared else ("", name)


def weight(name: str) -> tuple[int, str]:
    return len(name) + sum(2 for level in name.split("/") if level in ("", "+", "#")), name


def with_simpler_names(script: Script) -> Iterator[Script]:
    """One name replaced in all topics and filters at once."""
    names = {split_share(command[field])[1] for command in script
             for field in ("topic", "filter") if field in command}
    topics = {command["topic"] for command in script if "topic" in command}
    for name in sorted(names, key=weight, reverse=True):
        for plain in sorted(topics | PLAIN_NAMES, key=weight)[:FEW]:
            if weight(plain) >= weight(name):
                break
            yield [with_name(command, name, plain) for command in script]


def with_name(command: Command, name: str, plain: str) -> Command:
    """The command with `plain` where it has the name."""
    parts = {field: split_share(command[field])
             for field in ("topic", "filter") if field in command}
    fields = {field: share + plain for field, (share, text) in parts.items() if text == name}
    if "text" in command:
        fields["text"] = with_names(command["text"],
                                    lambda held: plain if held == name else held)
    return command | fields


def with_fewer_fields(script: Script) -> Iterator[Script]:
    """One field less, or both that say how long a session is kept."""
    for at, command in enumerate(script):
        optional = OPTIONAL.get(command["do"], ())
        for fields in (*((field,) for field in optional), SESSION):
            if all(field in command for field in fields):
                fewer = {name: value for name, value in command.items() if name not in fields}
                yield [*script[:at], fewer, *script[at + 1:]]


def with_simpler_fields(script: Script) -> Iterator[Script]:
    for at, command in enumerate(script):
        for field, simplest in SIMPLEST.items():
            if field in command:
                held = command[field]
                ahead = simplest[:simplest.index(held)] if held in simplest else simplest
                yield from ([*script[:at], command | {field: value}, *script[at + 1:]]
                            for value in ahead)


def with_shorter_lists(script: Script) -> Iterator[Script]:
    """Access lists with a line less."""
    for at, command in enumerate(script):
        lines = ended_lines(command.get("text", ""))
        for left_out in range(len(lines) if len(lines) > 1 else 0):
            shorter = {"text": "".join(lines[:left_out] + lines[left_out + 1:])}
            yield [*script[:at], command | shorter, *script[at + 1:]]


WAYS = (with_fewer_lines, with_shorter_lists, with_fewer_clients, with_simpler_names,
        with_fewer_fields, with_simpler_fields, first_names)


def simplified(script: Script, way: Callable[[Script], Iterator[Script]], still: Test) -> Script:
    """All that one way gives, each tried on what those before it left."""
    at, tried = 0, list(way(script))
    while at < len(tried):
        candidate = connected(tried[at])
        if candidate and candidate != script and still(candidate):
            script, tried = candidate, list(way(candidate))
        else:
            at += 1
    return script


def shrink(script: Script, still: Test) -> Script:
    """A script for which `still` holds, and for none that one of the ways makes of
    it; it holds for `script`."""
    answers: dict[str, bool] = {}

    def tried(candidate: Script) -> bool:
        key = json.dumps(candidate)
        if key not in answers:
            answers[key] = still(candidate)
        return answers[key]
    while True:
        before = script
        for way in WAYS:
            script = simplified(script, way, tried)
        if script == before:
            return script
