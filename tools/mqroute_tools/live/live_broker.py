"""A live broker on which many scripts are run, one after another."""
import time
from collections import Counter
from collections.abc import Iterator

from ..common.exit_status import Fault
from ..common.messages import in_words
from ..script.output import Block, Command
from ..script.text_faults import name_fault
from .broker_run import Replay
from .by_standard import PassedOver
from .line_difference import LineDifference
from .options import BrokerOptions
from .refused_lines import sent
from .run_ends import NEVER, RunEnds, TimeIsUp
from .wills import Wills

CLEANER = "mqroute-cleaner"


class LiveBroker:
    """What a script leaves on it is removed; where the broker is too slow for that, later."""

    def __init__(self, options: BrokerOptions) -> None:
        self.options = options
        self.unclean: list[list[Command]] = []  # scripts whose leavings are still there
        self.remarks: Counter[str] = Counter()  # what to say at the end, with {} for the number
        self.held: list[str] = []  # topics of what it retained at first, as far as it shows them
        replay = Replay(options)
        try:
            replay.connect({"do": "connect", "client": CLEANER})
            self.offer = replay.offer
            if options.on_acl:
                replay.set_access(None)
            self.look_at_retained(replay)
        except (OSError, RunEnds) as fault:
            why = fault.why if isinstance(fault, RunEnds) else in_words(fault)
            where = options.place()
            raise Fault(f"{where if replay.is_accepted else 'no ' + where[4:]}: {why}") from fault
        finally:
            replay.end()

    def look_at_retained(self, replay: Replay) -> None:
        if self.offer.wildcards:
            replay.do({"do": "subscribe", "client": CLEANER, "filter": "#"})
            replay.quiet()
            self.held = sorted({copy.topic for copy in replay.received()})

    def set_access(self, text: str | None) -> None:
        Replay(self.options).set_access(text)

    def can_run(self, script: list[Command]) -> bool:
        return not any(self.offer.lacks(command) for command in script)

    def run(self, script: list[Command], blocks: list[Block], until: float = NEVER,
            any_member: bool = False) -> list[LineDifference]:
        """What differs. Afterwards the broker has forgotten the script's sessions and retained
        messages; after TimeIsUp too."""
        replay, lines = Replay(self.options, until), list(sent(script, blocks, self.options))
        replay.wills = Wills(lines)
        replay.any_member = replay.any_member or any_member
        try:
            return list(self.answers(replay, lines))
        finally:
            replay.end()
            self.remarks += replay.remarks
            self.clean(script)

    def answers(self, replay: Replay, lines: list[tuple[int, Command, Block]]) \
            -> Iterator[LineDifference]:
        for number, command, block in lines:
            did = "will" if number in replay.wills.due else command["do"]
            try:
                texts = replay.answer(number, command, block)
            except RunEnds as fault:
                yield LineDifference(number, did, [f"   {fault}"], fault.what)
                return
            except PassedOver:
                return
            if texts:
                yield LineDifference(number, did, texts)

    def clean(self, script: list[Command]) -> None:
        """It takes no more than the patience, once for all: what isn't done by then is tried again
        behind the next script. Until then it stands under names that no other script has."""
        self.unclean.append(script)
        longest = time.monotonic() + self.options.patience
        replay = Replay(self.options, longest)
        try:
            while self.unclean:
                self.forget(replay, self.unclean[-1])
                self.unclean.pop()
        except (RunEnds, TimeIsUp, Fault, OSError):
            self.unclean.insert(0, self.unclean.pop())
        finally:
            replay.end()

    def leave(self) -> None:
        """Tries once more to remove what is left, and notes what stays."""
        if self.unclean:
            self.clean([])
        left = [script for script in self.unclean if script]
        if left:
            self.remarks["what {} scripts left on the broker is still there"] += len(left)

    def forget(self, replay: Replay, script: list[Command]) -> None:
        if any(command["do"] == "acl" for command in script):
            replay.set_access(None)
        for client in sorted(
                {command["client"] for command in script if command.get("session_expiry")}):
            replay.do({"do": "connect", "client": client})
            replay.do({"do": "disconnect", "client": client})
        topics = sorted({command["topic"] for command in script if command.get("retain")})
        if topics:
            replay.do({"do": "connect", "client": CLEANER})
        for topic in topics:
            if name_fault(topic):
                replay.refused.clear(topic)
                continue
            replay.do({"do": "publish", "client": CLEANER, "topic": topic, "retain": True,
                       "qos": min(1, self.offer.greatest_qos)})
