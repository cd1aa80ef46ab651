"""A run of commands on a live broker, one after another, with what differs
from mqroute's answers."""
import contextlib
import os
import ssl
import subprocess
import tempfile
import time
from collections import Counter
from collections.abc import Callable

from ..common.exit_status import Fault
from ..script.fresh_names import marks_of
from ..script.output import Block, Command
from ..script.sessions import Sessions
from . import packets
from .broker_diff import (
    Acknowledged, Copy, copies_of, different_copies, different_order, different_reasons)
from .by_standard import ByStandard
from .group_members import with_their_members
from .lateness import Lateness
from .offer import Offer
from .options import BrokerOptions
from .paho_client import Connection
from .receivers import Receivers
from .refused_lines import RefusedLines, is_refused
from .run_ends import NEVER, RunEnds, TimeIsUp
from .sockets import Sockets
from .wills import Wills

# nobody subscribes to it; its UNSUBACK shows that all that was sent before has come
FENCE = "mqroute/fence"
FEW = 10  # clients that are asked by it after every line, whether or not the line concerns them
MOMENT = 0.02  # seconds
QUIET_ROUNDS = 2  # a copy of QoS 2 needs two fences: one for PUBLISH, one for PUBREL
MOST_ROUNDS = 20  # in each of which more comes, before that may be too long
ACL_PAUSE = 0.3  # seconds that a broker gets to read an access list
LONGEST_PAUSE = 86_400  # seconds that an `advance` may take, in real time
WILL_PAUSE = 0.1  # and to see that a connection is gone
# Copies that are left out, of topics that the script didn't publish.
SYSTEM = "copies of topics under $SYS/, which the broker publishes itself, are left out"
EARLIER = "copies of what an earlier script left on the broker are left out"
ALL_ALLOWED = "pattern readwrite #\npattern readwrite $SYS/#\n"  # in place of no access list


class Replay:
    def __init__(self, options: BrokerOptions, until: float = NEVER) -> None:
        self.options, self.until = options, until
        self.live: dict[str, Connection] = {}
        self.sockets = Sockets()
        self.receivers = Receivers()
        self.concerned: set[str] | None = None  # whom the last command may bring something
        self.heard: dict[str, Connection] = {}  # who was sent something since the last line
        self.sessions = Sessions()
        self.standard = ByStandard(self.sessions)
        self.offer = Offer(protocol=options.protocol)
        self.lateness = Lateness()
        self.topics: set[str] = set()  # that the script has published so far
        self.marks: set[str] = set()  # of its names
        self.remarks: Counter[str] = Counter()  # what to say at the end, with {} for the number
        self.wills = Wills()
        self.refused = RefusedLines(options)
        self.not_sent: Counter[str] = Counter()  # why lines aren't, that mqroute refuses
        self.any_member = options.any_member or options.standard
        self.line = 0
        self.is_accepted = False  # whether the broker took the first connection

    # -- waiting

    def pump(self, done: Callable[[], bool], what: str) -> None:
        """Reads on all connections until `done`."""
        end = time.monotonic() + self.options.patience
        while not done():
            self.look_at_clock()
            if time.monotonic() > end:
                raise RunEnds("no answer", f"no {what} within {self.options.patience:g} seconds")
            self.heard |= {c.name: c for c in self.sockets.read(MOMENT)}

    def look_at_clock(self) -> None:
        if time.monotonic() > self.until:
            raise TimeIsUp

    def wait(self, connection: Connection, key: int | str, what: str) -> Acknowledged:
        self.pump(lambda: connection.has_answered(key), what)
        if key not in connection.answered:
            raise RunEnds(*connection.why_ended())
        return connection.answered.pop(key)

    def fence(self) -> None:
        """Until all has come that was sent to whom it may have been. All are asked before any is
        waited for."""
        marks = [(connection, connection.unsubscribe(FENCE)) for connection in self.asked()]
        for connection, mark in marks:
            self.wait(connection, mark, "UNSUBACK")
        if any("closed" in connection.answered for connection in self.heard.values()):
            self.look_at_ends()

    def asked(self) -> list[Connection]:
        """Those that the line concerns, and those to which something came though it doesn't."""
        if self.concerned is None or len(self.live) <= FEW:
            return list(self.live.values())
        names = self.concerned.union(self.heard)
        return [self.live[name] for name in sorted(names) if name in self.live]

    def look_at_ends(self) -> None:
        for connection in self.live.values():
            if "closed" in connection.answered:
                raise RunEnds(*connection.why_ended())

    def quiet(self) -> None:
        """Until nothing more comes."""
        idle, count, rounds = 0, -1, 0
        if self.options.settle:  # a pause of 0 would be one too
            time.sleep(self.options.settle)
        end = time.monotonic() + self.options.patience
        while idle < QUIET_ROUNDS:
            rounds += 1
            if rounds > MOST_ROUNDS and time.monotonic() > end:
                raise RunEnds("no end", "it goes on sending after "
                              f"{self.options.patience:g} seconds")
            self.fence()
            now = sum(len(c.got) for c in self.heard.values())
            idle, count = (idle + 1, count) if now == count else (0, now)

    # -- commands

    def let_pass(self, seconds: int) -> None:
        """A little more, so that what ends then has ended."""
        if seconds > LONGEST_PAUSE:
            raise Fault(f"line {self.line}: advance waits in real time, and {seconds} seconds "
                        f"are over a day")
        time.sleep(min(seconds + 0.1, max(0, self.until - time.monotonic())))
        self.lateness.passed += seconds
        self.look_at_clock()

    def do(self, command: Command) -> Acknowledged:
        """Sends one command; gives what its acknowledgement says."""
        do = command["do"]
        self.look_at_receivers(command)
        if do == "connect":
            return self.connect(command)
        if do in ("advance", "acl", "stat"):
            if do == "advance":
                self.let_pass(command["seconds"])
            if do == "acl":
                self.set_access(command.get("text"))
            return Acknowledged()
        connection = self.live[command["client"]]
        if do == "disconnect":
            return self.disconnect(connection)
        if do == "publish":
            sent = connection.publish(command)
            said = self.wait(connection, sent, "acknowledgement of the PUBLISH")
            return said if command.get("qos", 0) else Acknowledged()
        if do == "subscribe":
            return self.wait(connection, connection.subscribe(command), "SUBACK")
        return self.wait(connection, connection.unsubscribe(command["filter"]), "UNSUBACK")

    def look_at_receivers(self, command: Command) -> None:
        self.receivers.follow(command)
        self.concerned = self.receivers.of(command)
        if self.concerned is not None and self.line in self.wills.due:
            self.concerned |= self.receivers.of_topic(self.wills.due[self.line].message["topic"])

    def disconnect(self, connection: Connection) -> Acknowledged:
        if self.line in self.wills.due:
            connection.drop()
            time.sleep(WILL_PAUSE)
        else:
            connection.client.disconnect()
            connection.write()
        self.pump(lambda: "closed" in connection.answered, "end of the connection")
        self.forget(connection.name)
        return Acknowledged()

    def connect(self, command: Command) -> Acknowledged:
        self.forget(command["client"])  # the broker takes the old one's session over
        connection = self.connected(command)
        self.live[command["client"]] = connection
        self.sockets.add(connection)
        said = self.wait(connection, "connect", "CONNACK")
        if said.reason:
            raise RunEnds("refused", "the broker refused the connection of "
                          f"{connection.name}, reason {packets.in_words(said.reason)}")
        self.offer, self.is_accepted = connection.offer, True
        self.receivers.connected(connection.name, said.present)
        return said

    def forget(self, name: str) -> None:
        if name in self.live:
            self.sockets.remove(self.live.pop(name))
            self.heard.pop(name, None)

    def connected(self, command: Command) -> Connection:
        """A new connection."""
        try:
            return Connection(command, self.options, self.will())
        except (ssl.SSLError, ValueError) as fault:  # of TLS, of websockets
            where = f"line {self.line}: " if self.line else ""
            raise Fault(f"{where}{self.options.place()}: {fault}") from fault

    def will(self) -> Command | None:
        """What goes with the connection that this line makes."""
        return self.wills.given[self.line].message if self.line in self.wills.given else None

    def set_access(self, text: str | None) -> None:
        """Lets the user's command give the broker an access list."""
        if not self.options.on_acl:
            raise Fault(f"line {self.line} sets an access list: give --on-acl, a command that lets "
                        "the broker read one")
        with tempfile.NamedTemporaryFile("w", suffix=".acl", encoding="utf-8") as file:
            os.chmod(file.name, 0o644)
            file.write(ALL_ALLOWED if text is None else text)
            file.flush()
            done = subprocess.run(
                self.options.on_acl, shell=True, env=os.environ | {"MQROUTE_ACL": file.name})
            time.sleep(ACL_PAUSE)
        if done.returncode:
            raise Fault(
                f"line {self.line}: the command of --on-acl ended with status {done.returncode}")

    # -- comparing

    def answer(self, number: int, command: Command, block: Block) -> list[str]:
        """Runs a line, and gives what differs as texts to print."""
        self.line = number
        if number in self.wills.published:
            return []
        message, answer = self.wills.due.get(number, (command, block))
        self.marks |= marks_of(command.get("client", ""))
        if message["do"] == "publish":
            self.lateness.publish(message)
            self.topics.add(message["topic"])
        if is_refused(block):
            return self.refused_answer(command, block)
        present = self.sessions.present(command) if command["do"] == "connect" else False
        said = self.do(command)
        if self.options.standard and command["do"] == "connect":
            self.standard.taken_over(command, bool(said.present))
        self.quiet()
        if not block.refused:
            self.sessions.follow(command)
        theirs = self.received()
        ours = self.lateness.fitting(copies_of(answer), theirs)
        if self.options.standard:
            ours, theirs, found = self.by_standard(command, message, present, ours, theirs)
        elif self.any_member and message["do"] == "publish":
            found, ours = [], with_their_members(ours, theirs, message, self.sessions)
        else:
            found = []
        found += different_copies(ours, theirs, self.sessions)
        if command["do"] == "connect":
            found += different_order(ours, theirs)
        return found + different_reasons(command, block, said, present, self.offer.greatest_qos)

    def by_standard(self, command: Command, message: Command, present: bool, ours: list[Copy],
                    theirs: list[Copy]) -> tuple[list[Copy], list[Copy], list[str]]:
        """The copies that are to be compared, and what is due by the standard and didn't come."""
        if message["do"] == "publish":
            return *self.standard.published(self.line, message, ours, theirs), []
        if command["do"] == "connect":
            return self.standard.connected(command["client"], present, ours, theirs)
        return self.standard.timed(ours), self.standard.timed(theirs), []

    def refused_answer(self, command: Command, block: Block) -> list[str]:
        """Runs a line that the broker has to refuse, and by which nobody may be sent anything."""
        self.concerned = None
        found = self.refused.ask(self.line, command, block)
        self.quiet()
        return found + different_copies([], self.received(), self.sessions)

    def received(self) -> list[Copy]:
        """What has come, but for the topics that the broker publishes itself."""
        found = [copy for connection in self.heard.values() for copy in connection.copies()]
        self.heard.clear()
        found += self.refused.copies()
        return [copy for copy in found if not self.is_left_out(copy.topic)]

    def is_left_out(self, topic: str) -> bool:
        """Whether a copy has nothing to do with the script; that it came is said at the end."""
        if topic in self.topics:
            return False
        marks = marks_of(topic)
        why = SYSTEM if topic.startswith("$SYS/") else EARLIER if marks - self.marks else ""
        if why:
            self.remarks["{} " + why] += 1
        return bool(why)

    def end(self) -> None:
        for connection in self.live.values():
            with contextlib.suppress(OSError):
                if connection.client.socket():
                    connection.client.disconnect()
                    connection.write()
        self.remarks += self.standard.remarks
        self.refused.close()
        self.sockets.close()
