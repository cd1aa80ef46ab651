"""What is wrong with the texts of a command, for which mqroute refuses it whatever the lines
before it are: client ids, user names, topics, filters."""
from collections.abc import Iterator

from ..common.texts import json_text
from .output import Command
from .strict_json import has_half
from .topics import plain_filter

MOST_LEVELS, MOST_BYTES = 200, 65_535
LONGEST_SHOWN = 60
WILDCARDS = "+#"
SHARE = "$share/"


def size_fault(text: str) -> str:
    """Of a text that may be empty (1.5.4)."""
    # a character has at most four bytes
    if 4 * len(text) > MOST_BYTES and len(text.encode("utf-8")) > MOST_BYTES:
        return f"it has more than {MOST_BYTES:,} bytes"
    return "it has U+0000" if "\0" in text else ""


def text_fault(text: str) -> str:
    return size_fault(text) if text else "it is empty"


def level_fault(text: str) -> str:
    """That there are more than mqroute takes; the standard has no limit."""
    count = text.count("/") + 1
    return f"it has {count:,} levels, where mqroute takes {MOST_LEVELS}" if count > MOST_LEVELS \
        else ""


def has_wildcard(text: str) -> bool:
    return "+" in text or "#" in text


def name_fault(topic: str) -> str:
    """Why this isn't a topic name (4.7.1, 4.7.3); empty where it is one."""
    wildcard = "it has a wildcard" if has_wildcard(topic) else ""
    return text_fault(topic) or wildcard or level_fault(topic)


def is_topic(text: str) -> bool:
    """Whether mqroute-acl takes it as a topic name: a script has publishes that are refused for
    theirs."""
    return not has_half(text) and not name_fault(text)


def wildcard_fault(wanted: str) -> str:
    if not has_wildcard(wanted):
        return ""
    *parents, last = wanted.split("/")
    if any("#" in level for level in parents):
        return "it has # before its last level"
    for sign in WILDCARDS:
        if any(sign in level and level != sign for level in (*parents, last)):
            return f"it has {sign} within a level"
    return ""


def share_fault(text: str) -> str:
    """Of a text that may begin a shared subscription (4.8.2)."""
    if not text.startswith(SHARE):
        return ""
    name, _, wanted = text.removeprefix(SHARE).partition("/")
    if not name:
        return "it has no share name"
    if has_wildcard(name):
        return "its share name has a wildcard"
    return "" if wanted else "it has no filter behind its share name"


def filter_fault(text: str) -> str:
    """Why this is neither a topic filter nor a shared subscription; empty where it is one."""
    wanted = plain_filter(text)
    return text_fault(text) or share_fault(text) or wildcard_fault(wanted) or level_fault(wanted)


FAULTS = {"client": text_fault, "user": size_fault, "topic": name_fault, "filter": filter_fault}


def text_faults(command: Command) -> Iterator[str]:
    """What is wrong, each behind its field. Each field is as the command may have it."""
    for name, fault_of in FAULTS.items():
        if name in command:
            fault = fault_of(command[name])
            if fault:
                yield f"{name} is {shown(command[name])}: {fault}"
    if command.get("no_local") and command["filter"].startswith(SHARE):
        yield "no_local is true: a shared subscription has no No Local"


def shown(text: str) -> str:
    return json_text(text if len(text) <= LONGEST_SHOWN else text[:LONGEST_SHOWN] + "..")
