"""search: searches for differences between a live MQTT broker and mqroute: random scripts on
both, each that differs made as small as it goes on differing in that way.

The broker must be one that may be tried with anything, with no access list (but those of --on-acl)
and no other clients: sessions and retained messages are made and removed. What its CONNACK doesn't
offer isn't tried. Differences that the scripts in a --known FOLDER show, as they are stored
there, are skipped.
Exit status: 0 nothing new was found; 1 something was; 2 usage, a file, the broker, or no script
was run.
"""
import argparse
import itertools
import time
from collections.abc import Iterator
from pathlib import Path

from ..common.arguments import also_as
from ..common.exit_status import Fault
from ..common.messages import numbered, say
from ..common.option_values import amount, whole_number
from ..live.offer import Offer
from ..live.options import BrokerOptions, add_broker, add_waiting
from ..live.started_broker import started
from ..script.oracle import Oracle, OracleFault
from ..script.rules import RULES
from .finds import Find, Search
from .known import Known, known_differences
from .parts import ACCESS, ALL, CLOCK, MARKS, OLD_SESSIONS, Use
from .random_scripts import Maker
from .search_report import Report

MINUTES = 10.0
SHOWN = 5  # topics of a broker that isn't empty


def parts(text: str) -> list[str]:
    names = text.split(",")
    for name in names:
        if name not in ALL:
            raise argparse.ArgumentTypeError(f"{name!r} is none of {', '.join(ALL)}")
    return names


def offered(offer: Offer, options: argparse.Namespace) -> Use:
    """What the scripts may use: what the CONNACK says that the broker has, and the options let.
    With access lists no topic that begins with `$` is for all."""
    lacks = {"retained": not offer.retain, "groups": not offer.shared,
             "wildcards": not offer.wildcards, "identifiers": not offer.identifiers,
             "options": not offer.is_5, "expiry": not offer.is_5,
             "qos2": offer.greatest_qos < 2, "qos": offer.greatest_qos < 1}
    use = Use()
    if options.on_acl:
        use = use.with_part(ACCESS).without(["dollar"])
        use = use.with_part(MARKS) if options.rules == "mosquitto" else use
    if options.clock:
        use = use.with_part(CLOCK)
    use = use.without(part for part, lacking in lacks.items() if lacking)
    return (use if offer.is_5 else use.with_part(OLD_SESSIONS)).without(options.without)


def learn(search: Search, known: list[Known]) -> Iterator[Find]:
    """Runs what is known. What differs there in another way than it is stored is new, unless it
    is of a known kind."""
    others = []
    for one in known:
        if not one.left_out and not search.broker.can_run(one.script):
            one.left_out = "the broker doesn't offer what it uses"
        if not one.left_out:
            differences = search.run(one.script)
            if not one.is_seen_in(differences):  # a broker may do it now and then
                differences = search.run(one.script)
            others.append((one, one.compare(differences)))
    search.known = known
    for one, differences in others:
        for difference in differences:
            yield from search.another(one.script, difference)


def numbers(options: argparse.Namespace) -> Iterator[int]:
    """Those of the scripts that are run."""
    if options.number:
        return iter([options.number])
    return iter(range(1, options.count + 1)) if options.count else itertools.count(1)


def searched(search: Search, use: Use, known: list[Known], options: argparse.Namespace) -> Report:
    """All that was found, each shown."""
    report = Report(search, options)
    try:
        for find in itertools.chain(
                search.guarded(learn(search, known)),
                search.finds(Maker(options.seed, use), numbers(options))):
            report.add(find)
    except KeyboardInterrupt:
        report.interrupted()
        raise
    report.end()
    return report


def say_of_held(held: list[str]) -> None:
    if held:
        more = "" if len(held) <= SHOWN else f" and {len(held) - SHOWN} more"
        say(f"the broker isn't empty: it retains {', '.join(held[:SHOWN])}{more}: "
            "what is found may be of these")


def add_what(parser: argparse.ArgumentParser) -> None:
    """The options that say what is tried."""
    parser.add_argument("--on-acl", metavar="COMMAND",
                        help="try access lists too: what the shell does to let the broker read the "
                        "one in the file $MQROUTE_ACL, "
                        "as by: cp \"$MQROUTE_ACL\" /tmp/acl && kill -HUP 123")
    parser.add_argument("--rules", choices=RULES,
                        help="those by which mqroute reads access lists and decides: with "
                        "mosquitto half of the scripts have odd names (default own)")
    parser.add_argument("--clock", action="store_true",
                        help="let some scripts wait in real time, for sessions and messages that "
                        "expire")
    parser.add_argument("--minutes", type=amount, default=MINUTES, metavar="N",
                        help="how long to search at most (default 10)")
    count = parser.add_argument("--count", type=whole_number(1), metavar="N",
                                help="run so many scripts, if the time allows")
    parser.add_argument("--seed", type=whole_number(0), default=1, metavar="N",
                        help="of the random scripts (default 1)")
    number = parser.add_argument("--number", type=whole_number(1), metavar="N",
                                 help="run the script of this number alone")
    parser.add_argument("--at-least", type=whole_number(1), default=1, metavar="N",
                        help="end with status 2 where fewer scripts were run to their end and "
                        "nothing was found (default 1)")
    parser.add_argument("--without", type=parts, action="extend", default=[], metavar="PART,..",
                        help=f"leave these out of the scripts: {', '.join(ALL)}")
    parser.add_argument("--known", type=Path, action="append", default=[], metavar="FOLDER",
                        help="also ignore the differences that the scripts NAME.jsonl in it show, "
                        "as NAME.diff has them")
    also_as(parser, "--scripts", count)
    also_as(parser, "--only", number)


def add_arguments(parser: argparse.ArgumentParser) -> None:
    parser.description = (
        "Searches for differences between a live MQTT broker, which may be tried with anything, "
        "and mqroute.")
    add_broker(parser, "user name of all clients")
    parser.add_argument("--start", metavar="COMMAND",
                        help="begin a broker by the shell's COMMAND, and end it")
    add_what(parser)
    parser.add_argument("--save", type=Path, metavar="FOLDER",
                        help="write each find there as find-N.jsonl, .out and .diff")
    parser.add_argument("--junit", metavar="FILE", help="write the finds as JUnit's XML, too")
    parser.add_argument("--json", action="store_true",
                        help="print each find, and last a summary, as JSON on a line")
    parser.add_argument("--verbose", action="store_true",
                        help="print what was not seen again, too")
    add_waiting(parser)


def run(options: argparse.Namespace) -> int:
    if options.save:
        options.save.mkdir(parents=True, exist_ok=True)
    known = [one for folder in options.known
             for one in known_differences(folder, bool(options.on_acl), options.clock)]
    where = BrokerOptions.of(options)
    try:
        with Oracle(rules=options.rules, note=say) as oracle, started(options.start, where):
            return on_broker(where, oracle, known, options).status()
    except OracleFault as fault:
        raise Fault(str(fault)) from fault


def on_broker(where: BrokerOptions, oracle: Oracle, known: list[Known],
              options: argparse.Namespace) -> Report:
    from ..live.live_broker import LiveBroker  # needs paho
    until = time.monotonic() + 60 * options.minutes
    broker = LiveBroker(where)
    say_of_held(broker.held)
    search = Search(broker, oracle, until, by_letter=options.rules == "mosquitto")
    report = searched(search, offered(broker.offer, options), known, options)
    broker.leave()
    for what, count in broker.remarks.items():
        say(numbered(what, count))
    return report
