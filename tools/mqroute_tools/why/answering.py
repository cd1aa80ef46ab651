"""Answers a question about one publish: before it, at it, and after it."""
import argparse

from ..common.exit_status import Fault
from ..common.messages import typed
from ..script.access_list import AccessList
from ..script.output import Block
from . import causes
from .access import access_at
from .causes import Answer, Cause
from .disagreement import Disagreement
from .history import History
from .later import Later, Waiting
from .lines import Question
from .reckoning import Publish, Reckoning
from .references import ref
from .runs import Runs

SHOWN = 3  # refused subscribes
NOTHING_SENT = 16  # the reason where no copy is sent, and none begins to wait


def answered(asked: Question, given: AccessList | None,
             options: argparse.Namespace) -> list[Answer]:
    """Of the client, or of each that has connected by the line."""
    runs = Runs(options, asked.script, given)
    blocks = runs.all(asked.line)
    publish = Publish(asked.line, asked.publish, block_of(asked, blocks))
    history = History()
    for place in asked.script.accepted(blocks, 1, asked.line - 1):
        history.follow(*place)
    access = access_at(history, given, options.rules)
    reckoning = Reckoning(publish, history, access, runs, asked.client)
    found = reckoning.answers()
    if asked.client is not None:
        add_refused(asked, blocks, found[0].causes[0])
    if not publish.block.refused:
        if asked.client is None:
            look_at_reason(publish, reckoning)
        after = later(asked, reckoning, blocks)
        for answer in found:
            add_later(answer, after)
    return found


def add_refused(asked: Question, blocks: dict[int, Block], first: Cause) -> None:
    """The last subscribes that were refused, of a client that isn't subscribed."""
    if first.kind in (causes.NO_SUBSCRIPTION, causes.NO_SESSION) and asked.client is not None:
        refused = list(asked.script.refused(blocks, asked.client, asked.line))[-SHOWN:]
        first.details += [f"its subscribe at {ref(block.line)} was refused ({block.refused})"
                          for block in refused]


def block_of(asked: Question, blocks: dict[int, Block]) -> Block:
    """What mqroute answered to the publish."""
    block = blocks.get(asked.line)
    if block is None:
        raise Disagreement(asked.line, "it has no answer")
    if block.refused and block.refused not in causes.REFUSALS:
        raise Fault(f"{asked.place}: no command, {block.refused}: see {typed('check')}")
    return block


def later(asked: Question, reckoning: Reckoning, blocks: dict[int, Block]) -> Later:
    """What the lines behind the publish did."""
    history = reckoning.history
    held = {client: Waiting(qos, history.sessions[client].end)
            for client, (_, qos) in reckoning.waiting.items()}
    found = Later(asked.publish, history.now, held)
    for place in asked.script.accepted(blocks, asked.line + 1, len(asked.script.lines)):
        found.follow(*place)
    return found


def look_at_reason(publish: Publish, reckoning: Reckoning) -> None:
    """It says whether anybody was sent the message, or waits for it."""
    nobody = not publish.block.copies and not reckoning.waiting
    if nobody != (publish.block.reason == NOTHING_SENT):
        raise Disagreement(publish.line, f"the reason is {publish.block.reason}")


def add_later(answer: Answer, after: Later) -> None:
    """What became of a copy that waits, and what the client did later."""
    client, first = answer.client, answer.causes[0]
    for cause in answer.causes:
        if cause.kind == causes.WAITS:
            settle(cause, after.waiting[client])
    if first.kind == causes.NO_SESSION and client in after.connects:
        first.details.append(f"it connects at {ref(after.connects[client])}")
    elif first.kind == causes.NO_SUBSCRIPTION and client in after.subscribes:
        first.details.append(f"it subscribes to it at {ref(after.subscribes[client])}")
    if not answer.got() and client in after.retained:
        first.came = after.retained[client]
        first.words += "; later sent as a retained message"


def settle(cause: Cause, held: Waiting) -> None:
    """What became of a copy that waits."""
    cause.kind, ending = held.kind, held.ending
    if ending is None:
        cause.words = "away: the copy waits to the end of the script"
    elif held.kind == causes.WAITED:
        cause.came = ending.line
        cause.words = "away: the copy waited until the client was back"
    elif held.kind == causes.EXPIRED:
        cause.words = "away: the copy waited, and had expired when the client was back"
        cause.facts = f" (since {ref(cause.away)}, back at {ref(ending.line)})"
    else:
        cause.words = "away: the copy waited, and its session ended before the client was back"
        cause.ended = ending.line
        cause.facts = f" (since {ref(cause.away)}; {ending.in_words()})"
