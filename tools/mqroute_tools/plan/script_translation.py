"""A script under a plan: for each of its lines the new ones, and what occurs in it."""
from collections.abc import Callable, Iterator
from dataclasses import dataclass, field

from ..common.exit_status import Fault
from ..common.files import open_input
from ..common.texts import json_text
from ..script.commands import Seen
from ..script.output import Command, command_of
from .filters import Levels, is_name, levels, split_share, text_of
from .list_translation import translated
from .topic_plan import Plan
from .translator import Translator

Moved = Callable[[object], bool]  # whether a client uses new names


@dataclass
class Use:
    """Where a text occurs: the first line, how many lines, and their clients."""
    first: int
    lines: int = 0
    clients: dict[str, None] = field(default_factory=dict)


Uses = dict[str, Use]


@dataclass
class NewScript:
    old: list[bytes]
    lines: list[list[bytes]] = field(default_factory=list)
    topics: Uses = field(default_factory=dict)
    subscribed: Uses = field(default_factory=dict)
    unsubscribed: Uses = field(default_factory=dict)
    lists: dict[str, int] = field(default_factory=dict)  # texts of lists, and the first line

    def use(self, where: Uses, text: str, number: int, client: object) -> None:
        use = where.setdefault(text, Use(number))
        use.lines += 1
        use.clients[str(client)] = None

    def new_text(self) -> bytes:
        return b"".join(line + b"\n" for new in self.lines for line in new or [b""])

    def old_text(self) -> bytes:
        """With as many blank lines behind each line as the new script has more."""
        return b"".join(
            line + b"\n" * max(1, len(new)) for line, new in zip(self.old, self.lines))

    def names(self) -> Iterator[str]:
        """The topics that are published, or subscribed to without a wildcard."""
        yield from self.topics
        for text in self.subscribed:
            parts = split_share(text)
            if parts is not None and is_name(parts[1]):
                yield text_of(parts[1])

    def renamed_topics(self, plan: Plan) -> Iterator[tuple[Levels, Levels]]:
        """The topics that have new names, with these."""
        for topic in self.topics:
            name = levels(topic)
            new = plan.new_name(name) if is_name(name) else None
            if new is not None:
                yield name, new


def everyone(_: object) -> bool:
    return True


def read_lines(name: str) -> list[bytes]:
    """A script's lines. Raises Fault where no line is a command."""
    seen = Seen(name)
    with open_input(name) as stream:
        lines = stream.read().split(b"\n")
    for line in lines:
        seen.add(line)
    seen.refuse()
    return lines[:-1] if lines[-1] == b"" else lines


def rewritten(translator: Translator, lines: list[bytes], is_moved: Moved = everyone) -> NewScript:
    """An invalid line stays as it is: mqroute refuses it. So does a command that stays, but for
    characters that are escaped."""
    made = NewScript(lines)
    for number, line in enumerate(lines, 1):
        command = command_of(line) or {}
        is_list = command.get("do") == "acl"
        if is_list:
            new = new_lists(translator, made, number, command, is_moved is not everyone)
        else:
            new = new_commands(translator, made, number, command)
        stays = new == [command] or not (is_list or is_moved(command.get("client")))
        if stays and (not command or is_plain(line)):
            made.lines.append([line])
        else:
            made.lines.append([text_of_command(one) for one in ([command] if stays else new)])
    return made


def is_plain(line: bytes) -> bool:
    """A tab or a carriage return between its texts is none of a name's."""
    text = line.decode("utf-8", "replace")
    return text.replace("\t", " ").removesuffix("\r").isprintable()


def text_of_command(command: Command) -> bytes:
    return json_text(command, separators=(",", ":")).encode()


def new_commands(translator: Translator, made: NewScript, number: int,
                 command: Command) -> list[Command]:
    do, client = command.get("do"), command.get("client")
    topic, wanted = command.get("topic"), command.get("filter")
    if do == "publish" and isinstance(topic, str):
        made.use(made.topics, topic, number, client)
        new = new_topic(translator.plan, topic)
        return [] if new is None else [command | {"topic": new}]
    if do in ("subscribe", "unsubscribe") and isinstance(wanted, str):
        uses = made.subscribed if do == "subscribe" else made.unsubscribed
        made.use(uses, wanted, number, client)
        return [command | {"filter": one} for one in new_filters(translator, wanted)]
    return [command]


def new_topic(plan: Plan, topic: str) -> str | None:
    """The new name, or None; a text that isn't a topic stays."""
    name = levels(topic)
    if not is_name(name):
        return topic
    new = plan.new_name(name)
    return None if new is None else text_of(new)


def new_filters(translator: Translator, text: str) -> list[str]:
    """What is subscribed to in the place of a text; one that isn't a filter stays."""
    parts = split_share(text)
    if parts is None:
        return [text]
    share, wanted = parts
    return [share + text_of(new) for new in translator.translation(wanted).new]


def new_lists(translator: Translator, made: NewScript, number: int, command: Command,
              both: bool) -> list[Command]:
    """The list of an `acl` command; a faulty one stays, and is refused."""
    text = command.get("text")
    if not isinstance(text, str):
        return [command]
    try:
        new = translated(translator, text, "", both)
    except Fault:
        return [command]
    made.lists.setdefault(text, number)
    return [command | {"text": new.text}]
