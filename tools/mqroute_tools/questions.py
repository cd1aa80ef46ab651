"""mqr: each question as a subcommand. `mqr help` shows which there are.

Those about access lists, and `run`, are passed on to the programs; the others are tools.
Exit status: that of the subcommand; 2 where there is none of this name, or none is given.
"""
import os
import re
import signal
import sys
from typing import NamedTuple, NoReturn

from . import cli
from .common import interrupt
from .common.messages import FOLDED, MQR


class Answerer(NamedTuple):
    """A program, and the words with which it answers."""
    variable: str  # of the environment, that names it
    program: str
    words: tuple[str, ...] = ()

    def path(self) -> str:
        from .common.programs import find_program
        return find_program(self.variable, self.program)


def of_acl(word: str) -> Answerer:
    return Answerer("MQROUTE_ACL_PROGRAM", "mqroute-acl", (word,))


PASSED_ON = {**{name: of_acl(name) for name in ("compare", "who", "lint", "reach", "test")},
             "may": of_acl("why"),  # which is about messages here
             "run": Answerer("MQROUTE", "mqroute")}
TOOLS = ("preview", "why", "plan", "log-to-script", "replay", "search", "check")
ASKED = 38  # characters of a question on a line of the table
ENDING = """
options:
  -h, --help  show this table and exit; `mqr help SUBCOMMAND` and
              `mqr SUBCOMMAND --help` show the options of one
  --version   show the version and exit

example: mqr check day.jsonl
status: 0 nothing to say; 1 something to look at; 2 misuse or no answer; 3 a
fault of the machine
"""


class Question(NamedTuple):
    asked: str
    typed: str  # behind mqr; what goes on on a second line stands behind a line feed


# By what one has.
QUESTIONS: dict[str, list[Question]] = {
    "two access lists": [
        Question("What does one allow, the other not?", "compare OLD NEW"),
        Question("Who loses which messages of a day?", "preview OLD NEW LOG")],
    "an access list": [
        Question("May this client read or write this?", "may LIST CLIENT TOPIC"),
        Question("Who may read and write these topics?", "who LIST FILTER"),
        Question("Can this subscription get anything?", "reach LIST CLIENT FILTER"),
        Question("Which lines are wrong or needless?", "lint LIST"),
        Question("Does it keep what is expected of it?", "test EXPECTED LIST")],
    "a log of mosquitto": [
        Question("What did the clients do?", "log-to-script LOG"),
        Question("Why did a message come, or not?", "why --log LOG\n--topic TOPIC --at TIME"),
        Question("Did the broker route as mqroute does?", "replay --log LOG OUTPUT")],
    "a script of commands": [
        Question("Who would be sent what?",
                 "run --rules mosquitto\n--acl-file LIST SCRIPT"),
        Question("Why is a client sent this, or not?", "why SCRIPT LINE CLIENT"),
        Question("Which lines are wrong?", "check SCRIPT")],
    "two outputs of a script": [
        Question("Who loses what between them?",
                 "preview --outputs OLD_OUTPUT\nNEW_OUTPUT SCRIPT")],
    "a plan of topic names": [
        Question("What becomes of lists and scripts?", "plan check PLAN"),
        Question("Who loses what under both changes?",
                 "preview --rules own --plan PLAN\nOLD NEW LOG")],
    "a broker to try": [
        Question("Does it route as mqroute does?", "replay SCRIPT OUTPUT"),
        Question("Where does it not?", "search --port PORT")]}


def table() -> str:
    """What one has, what one asks, what one types."""
    lines = ["usage: mqr SUBCOMMAND ..", "", f"{'You have, and ask':{ASKED + 2}}  You type"]
    for have, questions in QUESTIONS.items():
        lines.append(have)
        for question in questions:
            first, *more = f"{MQR} {question.typed}".split("\n")
            lines.append(f"  {question.asked:{ASKED}}  {first}")
            lines += [f"{'':{ASKED + 8}}{line}" for line in more]
    return "\n".join(lines) + "\n" + ENDING


def in_words_of_mqr(text: str) -> str:
    """What a program's help says of itself, as it is typed here."""
    for name, (_, program, words) in PASSED_ON.items():
        own = " ".join([program, *words])
        behind = "(?=[ '\n])" if words else r"(?= [\[-])"  # `mqroute` alone may be all of it
        text = re.sub(rf"(?<![\w-]){own}{behind}", f"{MQR} {name}", text)
    return text


def show_help(name: str) -> int:
    """The help of a program's subcommand."""
    from .common.programs import output_of
    one = PASSED_ON[name]
    done = output_of([one.path(), *one.words, "--help"], statuses=(0,))
    print(in_words_of_mqr(done.stdout.decode("utf-8", "replace")), end="")
    return 0


def pass_on(name: str, given: list[str]) -> NoReturn:
    """The program takes the place of this process: its answers and its status are the answer."""
    from .common.exit_status import Fault
    from .common.programs import cannot_run
    one = PASSED_ON[name]
    path = one.path()
    signal.signal(signal.SIGPIPE, signal.SIG_DFL)  # as the shell has it, and Python doesn't
    try:
        os.execvp(path, [path, *one.words, *given])
    except OSError as fault:
        raise Fault(cannot_run(path, fault)) from fault


def no_such(name: str) -> str:
    """What is said of a subcommand that there isn't."""
    from difflib import get_close_matches
    if name in FOLDED:
        return f"there is no {MQR} {name}: see {MQR} {FOLDED[name]}"
    near = get_close_matches(name, [*PASSED_ON, *TOOLS], 1)
    guess = f" ({near[0]}?)" if near else ""
    return f"there is no {MQR} {name}{guess}: {MQR} help shows what there is"


def answer(words: list[str]) -> int:
    """The status of a subcommand with its arguments."""
    from .common.exit_status import Fault
    while words[:1] == [cli.HELP]:
        words = [*words[1:], "--help"] if words[1:] else ["--help"]
    if not words:
        print(table(), end="", file=sys.stderr)
        return 2
    name, *given = words
    if name in ("-h", "--help"):
        print(table(), end="")
        return 0
    if name == "--version":
        from .common.built import versions
        from .common.version import version
        print("\n".join((f"{MQR} {version()}", *versions())))
        return 0
    if name in TOOLS:
        sys.argv = [f"{MQR} {name}", *given]
        return cli.run(name)
    if name not in PASSED_ON:
        raise Fault(no_such(name))
    if given[:1] in (["--help"], ["-h"]):
        return show_help(name)
    pass_on(name, given)


def main() -> int:
    words, sys.argv = sys.argv[1:], [MQR]
    interrupt.handle(interrupt.stop)
    from .common import exit_status
    return exit_status.run(lambda: answer(words))
