"""Runs cases on a broker: all on one, each with names of its own, or each on a fresh one."""
import contextlib
import time
from collections import Counter
from collections.abc import Iterable, Iterator
from dataclasses import dataclass, field, replace
from enum import Enum
from pathlib import Path

from ..common.exit_status import Fault
from ..common.messages import in_words
from ..script.fresh_names import Marks, fresh
from ..script.oracle import Oracle, OracleFault
from ..script.output import Block, Command
from ..script.topics import plain_filter
from .broker_diff import copies_of
from .broker_run import ALL_ALLOWED
from .cases import Case
from .line_difference import LineDifference
from .live_broker import LiveBroker
from .options import BrokerOptions
from .packet_run import PacketRun
from .packet_steps import as_commands, marked
from .refused_lines import not_sent
from .script_fitting import OLD_SESSION, fitted_commands
from .started_broker import started
from .stored_diff import are_near, read_differences, report

# How what isn't offered begins, where the script is run all the same.
LOWERED = ("QoS over ", OLD_SESSION)


class Outcome(Enum):
    AGREES = "agrees"
    FREE = "free"  # it differs where the standard leaves the answer open
    KNOWN = "known"  # it differs as it is stored
    DIFFERS = "differs"
    LEFT_OUT = "left out"


@dataclass(frozen=True)
class CaseResult:
    case: Case
    outcome: Outcome
    why: str = ""  # it was left out, or what is no longer seen
    differences: list[LineDifference] = field(default_factory=list)
    script: list[Command] = field(default_factory=list)  # that was run
    seconds: float = 0
    not_sent: Counter[str] = field(default_factory=Counter)  # of lines, by why

    def lines(self) -> list[str]:
        """What differs, as replay prints it."""
        return report(self.script, self.differences)


@dataclass
class CorpusRun:
    options: BrokerOptions
    oracle: Oracle
    start: str | None = None  # the command that begins a broker for each case
    known: list[Path] = field(default_factory=list)  # folders
    marks: Marks = field(default_factory=Marks)
    held: list[str] = field(default_factory=list)  # what the broker retained at first
    broker: LiveBroker | None = None  # on which all are run

    def results(self, cases: Iterable[Case]) -> Iterator[CaseResult]:
        broker = self.broker = None if self.start else LiveBroker(self.options)
        self.held = broker.held if broker else []
        for case in cases:
            began = time.monotonic()
            result = self.result(case, broker)
            yield replace(result, seconds=time.monotonic() - began)

    def remarks(self) -> Counter[str]:
        """What to say at the end, behind a last try to remove what cases have left."""
        if self.broker is None:
            return Counter()
        self.broker.leave()
        return self.broker.remarks

    def result(self, case: Case, broker: LiveBroker | None) -> CaseResult:
        why = self.why_left_out(case)
        if why:
            return CaseResult(case, Outcome.LEFT_OUT, why)
        try:
            if broker:
                return self.on(broker, case)
            with started(self.start, self.options):
                return self.on(LiveBroker(self.options), case)
        except OSError as fault:
            raise Fault(f"the broker is gone ({in_words(fault)}) in {case.path}, or in the case "
                        "before") from fault

    def why_left_out(self, case: Case) -> str:
        if case.has_limits:
            return "it needs a broker with limits of its own"
        if case.has_lists() and not self.options.on_acl:
            return "it has an access list: give --on-acl"
        return ""

    def on(self, broker: LiveBroker, case: Case) -> CaseResult:
        if case.is_of_packets:
            return self.of_packets(broker, case)
        script, lacking = fitted_commands(case.script, broker.offer)
        left_out = sorted(what for what in lacking if not what.startswith(LOWERED))
        if left_out:
            return CaseResult(case, Outcome.LEFT_OUT,
                              f"{broker.offer.without()} {', '.join(left_out)}")
        found = self.compared(broker, case, script, bool(lacking))
        return replace(self.judged(case, script, found),
                       not_sent=not_sent(case.script, case.expected, self.options))

    # -- running

    def of_packets(self, broker: LiveBroker, case: Case) -> CaseResult:
        commands = as_commands(case.script)
        lacking = sorted({broker.offer.lacks(command) for command in commands} - {""})
        if lacking or not broker.offer.is_5 or self.options.websockets is not None:
            what = ", ".join(lacking) or "packets of MQTT 5 on TCP"
            return CaseResult(case, Outcome.LEFT_OUT, f"{broker.offer.without()} {what}")
        mark = "" if self.start else self.marks.next()
        steps = [marked(step, mark) for step in case.script] if mark else case.script
        run = PacketRun(self.options)
        try:
            found = list(run.differences(steps))
        finally:
            run.end()
            broker.clean(as_commands(steps))
        return self.judged(case, case.script, [replace(
            one, texts=[text.replace(mark, "") if mark else text for text in one.texts])
            for one in found])

    def compared(self, broker: LiveBroker, case: Case, script: list[Command],
                 is_fitted: bool) -> list[LineDifference]:
        """What differs, with the case's own names."""
        before = [] if case.acl is None else [{"do": "acl", "text": case.acl}]
        whole = [*before, *script]
        blocks = self.oracle.blocks(whole) if is_fitted else [
            *(Block(1, [], 0, None) for _ in before), *case.expected]
        mark = "" if self.start else self.fitting_mark(whole, blocks)
        if mark:
            whole = fresh(whole, mark)
            blocks = self.oracle.blocks(whole)
        with self.allowed(broker, case, whole):
            found = broker.run(whole, blocks, any_member=case.any_member)
        return [LineDifference(one.line - len(before), one.did,
                               [text.replace(mark, "") if mark else text for text in one.texts],
                               one.ended) for one in found]

    @contextlib.contextmanager
    def allowed(self, broker: LiveBroker, case: Case, script: list[Command]) -> Iterator[None]:
        """While it runs, a broker that has an access list by --on-acl allows all of a case that has
        none: a line that allows all topics speaks of none that begins with `$`."""
        names = first_levels(script) if self.options.on_acl and not case.has_lists() else []
        if names:
            lines = (f"pattern readwrite {name}{end}\n" for name in names for end in ("", "/#"))
            broker.set_access(ALL_ALLOWED + "".join(lines))
        try:
            yield
        finally:
            if names:
                broker.set_access(None)

    def fitting_mark(self, script: list[Command], blocks: list[Block]) -> str:
        """One with which the script means the same; empty where none does."""
        mark = self.marks.next()
        try:
            marked = self.oracle.blocks(fresh(script, mark))
        except OracleFault as fault:
            raise Fault(str(fault)) from fault
        return mark if all(map(means_same, blocks, marked)) else ""

    # -- judging

    def judged(self, case: Case, script: list[Command],
               found: list[LineDifference]) -> CaseResult:
        stored = [one for folder in self.known for one in self.stored(folder, case, script)]
        gone = [one for one in stored if not any(is_as(one, it) for it in found)]
        why = ""
        if gone:
            lines = ", ".join(str(one.line) for one in gone)
            why = f"known, and no longer seen as stored, at line {lines}"
        counted = [one for one in found if not case.is_free(one)]
        new = [one for one in counted if not any(is_as(one, it) for it in stored)]
        if new:
            return CaseResult(case, Outcome.DIFFERS, why, found, script)
        outcome = Outcome.KNOWN if counted else Outcome.FREE if found else Outcome.AGREES
        return CaseResult(case, outcome, why, found, script)

    def stored(self, folder: Path, case: Case, script: list[Command]) -> list[LineDifference]:
        file = folder / case.section / f"{case.name}.diff"
        return read_differences(file, script) if file.exists() else []


def first_levels(script: list[Command]) -> list[str]:
    """Those that begin with `$`, of topics and plain filters."""
    names = (plain_filter(command[field]).split("/")[0] for command in script
             for field in ("topic", "filter") if field in command)
    return sorted({name for name in names if name.startswith("$") and name != "$SYS"})


def is_as(one: LineDifference, other: LineDifference) -> bool:
    return one.line == other.line and are_near(one.texts, other.texts)


def means_same(block: Block, marked: Block) -> bool:
    """Whether an answer is the same to other names, as far as it can be seen."""
    mine, other = ([(copy.qos, copy.retain, copy.payload, copy.ids, copy.expiry, bool(copy.group))
                    for copy in copies_of(one)] for one in (block, marked))
    same = (block.reason, block.refused) == (marked.reason, marked.refused)
    return same and sorted(map(repr, mine)) == sorted(map(repr, other))
