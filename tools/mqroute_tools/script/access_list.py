"""An access list, and which of its lines decide, as `mqroute-acl why` shows it.

The program is $MQROUTE_ACL_PROGRAM, or the one that stands in the same clone or installation, or
`mqroute-acl` on the PATH.
"""
import json
from collections.abc import Iterable, Iterator
from dataclasses import dataclass
from typing import Any, NamedTuple

from ..common import temporary
from ..common.exit_status import Fault
from ..common.files import STDIN, is_packed, open_input, plain_file
from ..common.messages import counted, named
from ..common.programs import find_program, output_of
from ..common.texts import escaped, json_text, lines
from .rules import MOSQUITTO

NO_LINE = "no line allows it"
REFUSED = "mosquitto refuses it, whatever the list says"
CLIENT_MARK = b"%c"
MOST_BYTES = 8_000_000  # of questions for one process, which takes 16 MiB

Key = tuple[str | None, str | None, str, str]


@dataclass
class Line:
    """A line of a list."""
    file: str
    line: int
    text: str


@dataclass
class Verdict:
    """Whether a list allows an access, with the lines that deny it and that grant it."""
    access: str
    allowed: bool
    deny: Line | None
    grant: Line | None
    refused: bool = False  # by the broker itself, so that no line decides

    def deciding_line(self) -> Line | None:
        return None if self.refused else self.deny or self.grant

    def in_words(self) -> str:
        """The line that decides."""
        if self.refused:
            return REFUSED
        line = self.deciding_line()
        return f"{line.line}: {escaped(line.text.strip())}" if line else NO_LINE


class Question(NamedTuple):
    """May this client, under this user name, read or write the topic?"""
    client: str
    user: str | None
    topic: str
    access: str

    def line(self) -> bytes:
        """As the program reads it, which wants no `user` of a client without one."""
        members = {name: value for name, value in self._asdict().items() if value is not None}
        return f"{json_text(members)}\n".encode("utf-8")


class AccessList:
    """One list, a file or a text of that name. It is asked once for each user name, topic and
    access, and client if it has a `%c`, or goes by mosquitto's rules. A process answers many
    questions: who will ask several asks them all first."""

    def __init__(self, name: str, rules: str = MOSQUITTO, text: bytes | None = None) -> None:
        self.name, self.path, self.rules = name, name, rules
        self.program = find_program("MQROUTE_ACL_PROGRAM", "mqroute-acl")
        self.options = [f"--rules={rules}"]
        self.is_file = text is None and name != STDIN and plain_file(name) is not None
        if text is None:
            with open_input(name) as stream:
                text = stream.read()
        if not self.is_file or is_packed(name):  # the program reads it each time
            self.copy = temporary.file(self)
            self.copy.write(text)
            self.copy.flush()
            self.path = self.copy.name
        self.by_client = CLIENT_MARK in text or rules == MOSQUITTO
        self.known: dict[Key, Verdict] = {}

    def verdict(self, asked: Question) -> Verdict:
        """Whether the list allows it, with the lines that deny it and that grant it."""
        self.ask_all([asked])
        return self.known[self.key(asked)]

    def ask_all(self, questions: Iterable[Question]) -> None:
        """Those whose verdicts aren't known, each once. Raises Fault where the list can't be read,
        or one of the topics is no topic name."""
        unknown: dict[Key, Question] = {}
        for asked in questions:
            key = self.key(asked)
            if key not in self.known:
                unknown.setdefault(key, asked)
        for batch, text in batches(unknown.values()):
            for asked, verdict in zip(batch, self.answers(batch, text)):
                self.known[self.key(asked)] = verdict

    def key(self, asked: Question) -> Key:
        """What the verdict depends on."""
        return (asked.client if self.by_client else None, *asked[1:])

    def answers(self, batch: list[Question], text: bytes) -> list[Verdict]:
        """By one process that is given their text, in the order of the questions."""
        words = [self.program, "why", "--json", *self.options, "--questions=-", "--", self.path]
        done = output_of(words, lambda said: said.replace(self.path, named(self.name)), (0,),
                         given=text)
        found = list(map(self.verdict_of, lines(done.stdout.decode("utf-8"))))
        if [one.access for one in found] != [asked.access for asked in batch]:
            raise Fault(f"{self.program} doesn't answer what it is asked about {named(self.name)}: "
                        f"{counted(len(found), 'answers')} to {counted(len(batch), 'questions')}")
        return found

    def verdict_of(self, text: str) -> Verdict:
        found = json.loads(text)
        return Verdict(found["access"], found["allowed"], self.line(found["deny"]),
                       self.line(found["grant"]), found.get("refused", False))

    def line(self, found: dict[str, Any] | None) -> Line | None:
        """A line as the program shows it, which may have read a copy."""
        return Line(self.name, found["line"], found["text"]) if found else None


def batches(questions: Iterable[Question]) -> Iterator[tuple[list[Question], bytes]]:
    """The questions, in their order, and their text: as many at a time as one process takes."""
    batch: list[Question] = []
    text = bytearray()
    for asked in questions:
        line = asked.line()
        if batch and len(text) + len(line) > MOST_BYTES:
            yield batch, bytes(text)
            batch, text = [], bytearray()
        batch.append(asked)
        text += line
    if batch:
        yield batch, bytes(text)
