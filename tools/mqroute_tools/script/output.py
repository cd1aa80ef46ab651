"""What mqroute wrote for a script: the answers, by the script's lines."""
import json
import re
from collections import defaultdict
from collections.abc import Iterable, Iterator
from functools import lru_cache
from typing import Any, NamedTuple

from ..common.exit_status import Fault
from ..common.files import at, open_text
from ..common.texts import in_quotes
from .file_kinds import HEAD, kind
from .json_lines import line_reader

Command = dict[str, Any]  # a line of a script, as JSON has it
Answer = dict[str, Any]  # and one of an output
Key = tuple[str, str]  # client and topic
COPY = '{"client":'  # mqroute prints names in ascending order: a copy alone begins so
# a closing line or a refusal, but that of a `stat`: around the number of its line
BEGIN = re.compile(r'\{(?:"code":\d+,)?')
END = re.compile(r'"re(?:ason":(\d+)|fused":"([A-Za-z]+)")\}$')
NAME = re.compile(r"[A-Za-z]+")  # of a refusal
TEXT = r'[^"\\\x00-\x1f]*'  # a text of JSON without escapes
# a copy without escapes: up to the number of its line, with the client
FRONT = re.compile(
    rf'\{{"client":"({TEXT})"(?:,"expiry":\d+)?(?:,"filter":"{TEXT}")?(?:,"ids":\[[\d,]*\])?')
# and behind it, with its payload, QoS, RETAIN, group and topic
BACK = re.compile(
    rf'"payload":"({TEXT})","qos":([012]),"retain":(true|false)(?:,"share":"({TEXT})")?'
    rf',"topic":"({TEXT})"\}}\n')
REMEMBERED = 1 << 12  # of both, those of copies
MOST_REMEMBERED = 300  # characters of a copy
# of other commands 0, and of a subscribe its QoS
REASONS = {"publish": (0, 16), "unsubscribe": (0, 17)}
SHOWN = 60  # characters of a line
read_json = line_reader(json.JSONDecoder())


class Message(NamedTuple):
    """What a copy shows beside its client and line."""
    payload: str
    qos: int
    retain: bool
    shared: bool
    topic: str


class Block(NamedTuple):
    """What one line of a script was answered: its copies as they stand, then a reason (a
    stat has none) or a refusal."""
    line: int
    copies: list[str]
    reason: int | None
    refused: str | None
    end: str = ""  # the closing line or the refusal, as it stands

    def texts(self) -> list[str]:
        """The lines that were written."""
        return [*self.copies, self.end]

    def answers(self) -> list[Answer]:
        return [read_json(text) for text in self.texts()]


def blocks(name: str) -> Iterator[Block]:
    """The answers in the output that a file has, in order."""
    with open_text(name) as stream:
        yield from blocks_of(stream, name)


def blocks_of(lines: Iterable[str], name: str) -> Iterator[Block]:
    """The answers in an output, in order; each as soon as its last line is there."""
    copies: list[str] = []
    number, text = 0, "\n"
    try:
        for number, text in enumerate(lines, 1):
            if text.startswith(COPY):
                copies.append(text)
                continue
            yield closed(text, copies)
            copies = []
    except UnicodeDecodeError as fault:
        raise Fault(f"{name}: no output of mqroute: it is not UTF-8") from fault
    except (ValueError, KeyError, TypeError, RecursionError) as fault:
        raise Fault(f"{at(name, number)}: {no_answer(text, number)}") from fault
    if copies or not text.endswith("\n"):
        raise Fault(f"{at(name, number)}: cut short: copies without a closing line, "
                    "or a line without its end")


def no_answer(text: str, number: int) -> str:
    """What is wrong with a line of an output, that is its first of all or a later one."""
    if not text.endswith("\n"):
        return "cut short: no answer of mqroute"
    what = kind(text[:HEAD].encode("utf-8", "replace")) if number == 1 else ""
    return "no answer of mqroute" + (f": looks like {what}" if what else "")


@lru_cache(REMEMBERED)
def meaning(begin: str, end: str) -> tuple[int | None, str | None] | None:
    """The reason and the refusal of a closing line, by what stands around the number of its line;
    None where that is of another form."""
    found = END.match(end) if BEGIN.fullmatch(begin) else None
    if found is None:
        return None
    reason, refused = found.groups()
    return int(reason) if reason else None, refused


def closed(text: str, copies: list[str]) -> Block:
    """The answer that a closing line ends."""
    begin, _, rest = text.partition('"line":')
    number, _, end_text = rest.partition(",")
    meant = meaning(begin, end_text)
    if meant is not None and number.isdecimal():
        # as Block(..) makes it, by one call less
        return tuple.__new__(Block, (int(number), copies, *meant, text))
    end = read_json(text)
    reason, accepted = end.get("reason"), "reason" in end or "nodes" in end
    refused = None if accepted else end["refused"]
    if not isinstance(reason, int | None) or not (refused is None or NAME.fullmatch(refused)):
        raise ValueError
    return Block(int(end["line"]), copies, reason, refused, text)


def client_of(front: str) -> str | None:
    found = FRONT.fullmatch(front)
    return found[1] if found else None


def message_of(back: str) -> Message | None:
    found = BACK.fullmatch(back)
    if found is None:
        return None
    payload, qos, retain, share, topic = found.groups()
    return Message(payload, int(qos), retain == "true", share is not None, topic)


# most copies differ from an earlier one in the number of their line alone
known_client_of = lru_cache(REMEMBERED)(client_of)
known_message_of = lru_cache(REMEMBERED)(message_of)


def plain_copy(text: str) -> tuple[str, Message] | None:
    """The client and the message of a copy without escapes; None of another one."""
    front, _, rest = text.partition(',"line":')
    number, _, back = rest.partition(",")
    if len(text) <= MOST_REMEMBERED:
        client, message = known_client_of(front), known_message_of(back)
    else:
        client, message = client_of(front), message_of(back)
    if client is None or message is None or not number.isdecimal():
        return None
    return client, message


def by_key(copies: list[str], name: str = "the output") -> defaultdict[Key, list[str]]:
    """The copies of each client and topic, read without JSON where they are plain."""
    found: defaultdict[Key, list[str]] = defaultdict(list)
    for text in copies:
        plain = plain_copy(text)
        found[(plain[0], plain[1].topic) if plain else key_of(text, name)].append(text)
    return found


FIELDS = {"client": str, "topic": str, "payload": str, "qos": int, "retain": bool}  # of a copy


def odd_copy(text: str, name: str) -> Answer:
    """A copy that isn't plain. Raises Fault where it is none."""
    try:
        copy = read_json(text)
        if all(isinstance(copy[field], one) for field, one in FIELDS.items()):
            return dict(copy)
    except (ValueError, KeyError, TypeError, RecursionError):
        pass
    raise Fault(f"{name}: no output of mqroute: begins like a copy and is none: "
                f"{text[:SHOWN].rstrip()}")


def key_of(text: str, name: str) -> Key:
    copy = odd_copy(text, name)
    return copy["client"], copy["topic"]


def command_of(text: bytes) -> Command | None:
    """The command on a line of a script, if Python can read it as one."""
    try:
        if text.startswith(b'{"'):  # and so no other encoding, which json.loads looks for
            value = read_json(text.decode("utf-8", "surrogatepass"))
        else:
            value = json.loads(text)
    except (ValueError, RecursionError):
        return None
    return value if isinstance(value, dict) else None


def is_blank(text: bytes) -> bool:
    return not text.strip(b" \t\r\n")


def misfit(command: Command | None, block: Block, keys: Iterable[Key]) -> str:
    """Why mqroute can't have answered this to the command: its output is of another
    script. Empty where it can."""
    if command is None or block.refused:
        return ""
    do, client = command.get("do"), command.get("client")
    reasons = (command.get("qos", 0),) if do == "subscribe" else REASONS.get(str(do), (0,))
    if block.reason is not None and block.reason not in reasons:
        return f"reason {block.reason} for the command {do}"
    for receiver, topic in keys:
        if do == "publish" and topic != command.get("topic"):
            return f"a copy of the topic {in_quotes(topic)}, which isn't the one that is published"
        if do in ("connect", "subscribe") and receiver != client:
            return (f"a copy for {in_quotes(receiver)}, where {in_quotes(str(client))} connects "
                    "or subscribes")
        if do not in ("publish", "connect", "subscribe"):
            return f"a copy for the command {do}"
    return ""
