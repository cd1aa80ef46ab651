"""replay: runs a script on a live MQTT broker and compares who got what with mqroute's output; or
all cases of a folder (replay_all).

The broker has to have the access list that mqroute had, and no other clients. Copies of one client
for one line and topic are joined: greatest QoS, any RETAIN, all identifiers; there may be as many
as the client has subscriptions for the topic. The order of what waited, the reasons of SUBACK,
UNSUBACK, PUBACK and PUBREC, and CONNACK's session present are compared too.
Exit status: 0 nothing differs; 1 something does; 2 usage, a file, an output that isn't of the
script, the broker.
"""
import argparse
import json
import re
from collections import Counter
from collections.abc import Iterable, Iterator
from typing import TYPE_CHECKING

from ..common.exit_status import Fault
from ..common.files import at, keep_apart, open_input, refuse_stdin_twice
from ..common.messages import in_words, numbered, say
from ..common.option_values import whole_number
from ..common.progress import Progress
from ..common.texts import json_text
from ..script.commands import Seen, line_faults
from ..script.oracle import Oracle
from ..script.output import Block, Command, blocks, by_key, command_of, is_blank, misfit
from ..script.rules import RULES
from .by_conf import take_conf
from .by_standard import PassedOver
from .options import BrokerOptions, add_broker, add_waiting
from .recorded_broker import add_recorded, compare_log, refuse_mixed
from .refused_lines import is_refused, is_refused_by_mqtt, shown as reasons_shown, why_not_sent
from .replay_options import add_all, look_at_options
from .run_ends import RunEnds
from .script_fitting import fitted_script, read_list
from .wills import Wills

if TYPE_CHECKING:
    from .broker_run import Replay  # needs paho

Line = tuple[int, Command, Block]
LINE = re.compile(r"\Aline (\d+):? ")  # how a fault of a live run begins


def runnable(script: Iterable[bytes], given: Iterator[Block], names: tuple[str, str],
             where: BrokerOptions, left_out: Counter[str]) -> Iterator[Line]:
    """The lines that can be sent, with their answers; `left_out` gets why others aren't."""
    name, output = names
    lines, seen = iter(script), Seen(name)
    for number, line in enumerate(lines, 1):
        seen.add(line)
        if is_blank(line):
            continue
        block, place = next(given, None), at(name, number)
        if block is None or block.line != number:
            seen.refuse(lines)
            raise Fault(f"{place}: not answered in {output}: it is cut short, "
                        "or is of another script")
        faults = line_faults(line.removesuffix(b"\n"))
        if is_refused(block):
            why = why_not_sent(None if faults else json.loads(line), block, where)
            if why:
                left_out[why] += 1
                continue
        if faults:
            seen.refuse(lines)
            raise Fault(f"{place}: {faults[0]}: {output} accepts it: it is of another script")
        command = json.loads(line)
        if is_refused(block) and not is_refused_by_mqtt(command):
            raise Fault(f"{place}: {output} is of another script: it answers {block.refused}")
        why = misfit(command, block, by_key(block.copies, output))
        if why:
            raise Fault(f"{place}: {output} is of another script: it answers with {why}")
        yield number, command, block
    seen.refuse()
    if next(given, None):
        raise Fault(f"{output} has answers to lines that {name} doesn't have")


def offered(replay: "Replay", options: argparse.Namespace, script: list[bytes],
            given: list[Block], lines: list[Line]) -> list[Line]:
    """The lines as this broker can run them. Where it lacks something mqroute answers again."""
    fitted, shown = fitted_script(
        script, {number for number, _, block in lines if not is_refused(block)}, replay.offer)
    if not shown:
        return lines
    lacking = ", ".join(what.partition(": ")[0] for what in shown)
    again = asked_again(options, script, given, fitted, lacking)
    replay.remarks += shown
    return list(runnable(fitted, iter(again), (options.script, "mqroute's answer"),
                         replay.options, Counter()))


def asked_again(options: argparse.Namespace, script: list[bytes], given: list[Block],
                fitted: list[bytes], why: str) -> list[Block]:
    """What mqroute answers to the script that is run in the place of the given one."""
    acl = read_list(options.acl_file) if options.acl_file else None
    with Oracle(acl, options.max_retained, options.max_queued, rules=options.rules,
                note=say) as oracle:
        if oracle.script_blocks(b"".join(script)) != given:
            raise Fault(f"{why}: mqroute has to run again, and wrote {options.output} "
                        "with other options. Give its --acl-file, --rules, --max-retained and "
                        "--max-queued")
        return oracle.script_blocks(b"".join(fitted))


def without_waiting(replay: "Replay", options: argparse.Namespace, script: list[bytes],
                    given: list[Block]) -> tuple[list[bytes], list[Block]]:
    """The script without the lines that let time pass, and what mqroute answers to it."""
    pauses = {number for number, line in enumerate(script, 1)
              if (command_of(line) or {}).get("do") == "advance"}
    if not pauses:
        return script, given
    fitted = [b"\n" if number in pauses else line for number, line in enumerate(script, 1)]
    again = asked_again(options, script, given, fitted, "--no-wait")
    replay.remarks["{} pauses left out, by --no-wait"] += len(pauses)
    return fitted, again


def answer(replay: "Replay", script: str, line: Line) -> list[str]:
    """What differs at one line. A fault names the script and the line; that the broker takes no
    connection at all is one."""
    broker = replay.options.place()
    try:
        return replay.answer(*line)
    except RunEnds as fault:
        if replay.is_accepted:
            raise
        raise Fault(f"{at(script, line[0])}: {broker}: {fault.why}") from fault
    except Fault as fault:
        text = LINE.sub(lambda found: f"{at(script, int(found[1]))}: ", str(fault))
        raise Fault(text) from fault
    except OSError as fault:
        raise Fault(f"{at(script, line[0])}: {broker}: {in_words(fault)}") from fault


def differences(replay: "Replay", options: argparse.Namespace,
                progress: Progress) -> Iterator[list[str]]:
    """For each line that differs, the texts to print."""
    with open_input(options.script) as stream:
        script = stream.readlines()
    given = list(blocks(options.output))
    if options.no_wait:
        script, given = without_waiting(replay, options, script, given)
    lines = list(runnable(script, iter(given), (options.script, options.output),
                          replay.options, replay.not_sent))  # faults first
    replay.wills = Wills(lines if options.wills else ())
    place, fits = 0, False
    while place < len(lines):
        number, command, _ = line = lines[place]
        progress.at(number, len(script))
        head = f"line {number}: {json_text(command)}"
        try:
            found = answer(replay, options.script, line)
        except RunEnds as fault:
            yield [head, f"   {fault}"]
            return
        except PassedOver:
            return
        if found:
            yield [head, *found]
        if command["do"] == "connect" and not fits:
            fits = True
            fitting = offered(replay, options, script, given, lines)
            rest = [it for it in fitting if it[0] > number]
            lines = lines[:place + 1] + rest
            replay.wills = Wills(lines if options.wills else ())
        place += 1


def compared(replay: "Replay", options: argparse.Namespace) -> int:
    """How many lines differ, each shown."""
    number, progress = 0, Progress()
    try:
        for number, texts in enumerate(differences(replay, options, progress), 1):
            progress.clear()
            print("\n".join(texts), flush=True)
    except KeyboardInterrupt:
        progress.clear()
        differ = "line differs" if number == 1 else "lines differ"
        say(f"at line {replay.line} of {progress.of}: {number} {differ} so far")
        raise
    finally:
        progress.clear()
    return number


def add_arguments(parser: argparse.ArgumentParser) -> None:
    parser.description = (
        "Runs a script on a live MQTT broker and compares with mqroute's output; or all cases of a "
        "folder.")
    parser.add_argument("script", metavar="SCRIPT", nargs="?", help="for mqroute, which is run")
    parser.add_argument("output", metavar="OUTPUT", nargs="?", help="what mqroute wrote for it")
    add_all(parser)
    add_broker(parser, "user name of the clients for which the script has none")
    parser.set_defaults(port=None)  # so that it's known whether it is given
    parser.add_argument("--conf", metavar="FILE", help="the broker's mosquitto.conf, which names "
                        "its port, its list, and how many messages may wait")
    parser.add_argument("--on-acl", metavar="COMMAND",
                        help="what the shell does for an `acl` line: it lets the broker read the "
                        "access list in the file $MQROUTE_ACL, "
                        "as by: cp \"$MQROUTE_ACL\" /tmp/acl && kill -HUP 123")
    parser.add_argument("--acl-file", metavar="FILE",
                        help="the access list with which mqroute wrote OUTPUT: it runs again where "
                        "the broker doesn't offer all that the script asks for")
    parser.add_argument("--rules", choices=RULES, help="the rules with which it did")
    parser.add_argument("--max-retained", type=whole_number(0), metavar="N",
                        help="the limit with which it did")
    parser.add_argument("--max-queued", type=whole_number(0), metavar="N",
                        help="the limit with which it did")
    parser.add_argument("--wills", action="store_true",
                        help="run as a will what a client publishes with the payload `will` and "
                        "then disconnects: it goes with the CONNECT, and the connection ends "
                        "without a DISCONNECT")
    parser.add_argument("--no-wait", action="store_true",
                        help="leave out the lines that let time pass: mqroute answers the script "
                        "without them, as a broker does that is run without waiting")
    add_waiting(parser)
    add_recorded(parser)


def run(options: argparse.Namespace) -> int:
    refuse_mixed(options)
    if options.log:
        return compare_log(options)
    look_at_options(options)
    take_conf(options)
    if options.all:
        from .replay_all import run_all  # needs paho
        return run_all(options)
    return run_one(options)


def run_one(options: argparse.Namespace) -> int:
    refuse_stdin_twice([options.script, options.output, options.acl_file])
    keep_apart([options.script, options.output, options.acl_file, options.conf])
    from .broker_run import Replay  # needs paho
    replay = Replay(BrokerOptions.of(options))
    try:
        status = 1 if compared(replay, options) else 0
    finally:
        replay.end()
    for what, count in replay.remarks.items():
        say(numbered(what, count))
    if replay.not_sent:
        say(reasons_shown(replay.not_sent))
    return status
