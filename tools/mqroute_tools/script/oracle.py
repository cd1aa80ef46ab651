"""The program mqroute as an oracle, which answers commands and whole scripts; the plain reader
where there is no program."""
import io
import json
import subprocess
import tempfile
import warnings
from collections.abc import Callable, Iterable, Iterator
from pathlib import Path
from typing import IO

from ..common.exit_status import Fault
from ..common.programs import (
    cannot_run, existing_program, find_program, no_answer, on_one_line)
from ..plain.reader import Reader
from ..plain.world import FaultyList
from .output import Answer, Block, Command, blocks_of

PIECE = 1 << 20
LINES = 100_000  # on which tests/test_plain.py compares both
UNPROVED = ("answers by the plain reader, unproved, since there is no mqroute; the proved program "
            f"agrees with it on {LINES:,} lines in CI")


class OracleFault(Exception):
    """The program is not there, or it ended with another status than 0 and 1."""


class Unproved(UserWarning):
    """The plain reader answers."""


def warn(text: str) -> None:
    warnings.warn(text, Unproved, stacklevel=4)


class PlainNote:
    """What is said once of answers that the plain reader gives."""
    is_said = False

    def say(self, note: Callable[[str], None]) -> None:
        if not self.is_said:
            self.is_said = True
            note(UNPROVED)


plain_reader = PlainNote()


def found_program() -> str:
    return find_program("MQROUTE", "mqroute")


def answers(words: list[str], script: bytes) -> list[Block]:
    """What mqroute, run by these words, answers to a script."""
    return list(each_answer(words, [script]))


def each_answer(words: list[str], script: Iterable[bytes], first: int = 1) -> Iterator[Block]:
    """The same, from a line of the script on: what mqroute wrote stands in a file meanwhile."""
    with tempfile.TemporaryFile() as given, tempfile.TemporaryFile() as written:
        given.writelines(script)
        given.seek(0)
        try:
            done = subprocess.run(words, stdin=given, stdout=written, stderr=subprocess.PIPE)
        except OSError as fault:
            raise Fault(cannot_run(words[0], fault)) from fault
        if done.returncode not in (0, 1):
            raise no_answer("mqroute", done.returncode, on_one_line(done.stderr))
        written.seek(0)
        # no text in an answer has these bytes: its quotes are escaped
        written.seek(place_of(written, b'"line":%d,' % first) if first > 1 else 0)
        with io.TextIOWrapper(written, encoding="utf-8", newline="\n") as lines:
            yield from blocks_of(lines, "the answer")


def place_of(stream: IO[bytes], wanted: bytes) -> int:
    """Where the first line begins that has these bytes; where none has, the end."""
    begin, text = 0, b""  # what is read of the lines that aren't passed
    while piece := stream.read(PIECE):
        text += piece
        place = text.find(wanted)
        if place >= 0:
            return begin + text.rfind(b"\n", 0, place) + 1
        passed = text.rfind(b"\n") + 1
        begin, text = begin + passed, text[passed:]
    return begin + len(text)


class Conversation:
    """A program that runs: a line in, its answers out."""

    def __init__(self, words: list[str]) -> None:
        self.program = subprocess.Popen([*words, "--unbuffered"], stdin=subprocess.PIPE,
                                        stdout=subprocess.PIPE, stderr=subprocess.PIPE)
        given, written, shown = self.program.stdin, self.program.stdout, self.program.stderr
        assert given and written and shown, "each is a pipe"
        self.input, self.shown = given, shown
        self.output = io.TextIOWrapper(written, "utf-8", newline="\n")
        self.blocks: Iterator[Block] = blocks_of(self.output, "the answer")

    def block(self, line: str) -> Block:
        try:
            self.input.write(line.encode())
            self.input.flush()
            return next(self.blocks)
        except (OSError, Fault, StopIteration) as fault:
            raise OracleFault(
                self.end() or f"mqroute ended with status {self.program.returncode}") from fault

    def end(self) -> str:
        """Lets the program end; what it said on standard error, once."""
        if self.output.closed:
            return ""
        try:
            self.input.close()
        except OSError:
            pass  # the program has ended before it read all
        self.output.close()
        with self.shown as stream:
            shown = on_one_line(stream.read())
        self.program.wait()
        return shown


class PlainConversation:
    """The plain reader in the program's place."""

    def __init__(self, reader: Reader) -> None:
        self.reader = reader

    def block(self, line: str) -> Block:
        [block] = blocks_in(self.reader.answer(line.removesuffix("\n").encode()))
        return block

    def end(self) -> str:
        return ""


def blocks_in(text: bytes) -> Iterator[Block]:
    return blocks_of(io.StringIO(text.decode(), newline="\n"), "the answer")


class Oracle:
    """Answers commands one by one, in a world that lasts until `reset` or `close`; and whole
    scripts, each in a world of its own.

    `acl` is the text of an access list; without one everything is allowed. The limits and the
    rules of access lists, "own" or "mosquitto", are those of the program's options. Where there is
    no program, or with `plain=True`, the plain reader answers.
    """

    def __init__(self, acl: str | None = None, max_retained: int | None = None,
                 max_queued: int | None = None, program: str | None = None,
                 rules: str | None = None, plain: bool = False,
                 note: Callable[[str], None] = warn) -> None:
        found = program or existing_program("MQROUTE", "mqroute")
        self.is_plain = plain or found is None
        self.told = acl, max_retained, max_queued, rules
        self.conversation: Conversation | PlainConversation | None = None
        self.folder: tempfile.TemporaryDirectory[str] | None = None
        self.words = [] if found is None else [found, *self.arguments()]
        if self.is_plain and not plain:
            plain_reader.say(note)

    def arguments(self) -> list[str]:
        """Of the program."""
        acl, max_retained, max_queued, rules = self.told
        words = [] if rules is None else [f"--rules={rules}"]
        for name, limit in (("--max-retained", max_retained), ("--max-queued", max_queued)):
            if limit is not None:
                words.append(f"{name}={limit}")
        if acl is not None and not self.is_plain:
            self.folder = tempfile.TemporaryDirectory(prefix="mqroute-")
            file = Path(self.folder.name, "acl")
            file.write_text(acl, encoding="utf-8", newline="")
            words.append(f"--acl-file={file}")
        return words

    def reader(self) -> Reader:
        try:
            return Reader(*self.told)
        except FaultyList as fault:
            raise OracleFault(f"access list {fault}") from fault

    def __enter__(self) -> "Oracle":
        return self

    def __exit__(self, *_: object) -> None:
        self.close()

    def reset(self) -> None:
        """The next command is the first again, of a world of its own."""
        if self.conversation is not None:
            self.conversation.end()
            self.conversation = None

    def close(self) -> None:
        self.reset()
        if self.folder is not None:
            self.folder.cleanup()

    def answers(self, command: Command) -> list[Answer]:
        """The answers to a command after those before it: its copies, then the closing line or the
        refusal.

        Their line is the number of commands so far. After OracleFault nothing more is answered
        before `reset` or `close`.
        """
        if self.conversation is None:
            try:
                self.conversation = (PlainConversation(self.reader()) if self.is_plain
                                     else Conversation(self.words))
            except OSError as fault:
                raise OracleFault(cannot_run(self.words[0], fault)) from fault
        return self.conversation.block(json.dumps(command) + "\n").answers()

    def run(self, commands: Iterable[Command]) -> list[list[Answer]]:
        """The answers to each command: its copies, then the closing line or the refusal."""
        return [block.answers() for block in self.blocks(commands)]

    def blocks(self, commands: Iterable[Command]) -> list[Block]:
        """The same, as the lines that mqroute wrote."""
        lines = [json.dumps(command) + "\n" for command in commands]
        try:
            return self.script_blocks("".join(lines).encode())
        except Fault as fault:
            raise OracleFault(str(fault)) from fault

    def script_blocks(self, script: bytes) -> list[Block]:
        """The answers to a script as a file has it."""
        return list(self.each_block(script))

    def each_block(self, script: bytes) -> Iterator[Block]:
        """The same, one after another."""
        if self.is_plain:
            return blocks_in(b"".join(self.reader().answers(io.BytesIO(script))))
        return each_answer(self.words, [script])
