"""Hypothesis strategies of scripts, for tests of a broker against an Oracle.

    @given(scripts(without=("sessions", "expiry")))
    def test_as_mqroute(commands):
        with Oracle() as oracle:
            for command, answers in zip(commands, oracle.run(commands)):
                assert my_broker(command) == answers

Every command is of a client that is connected, names are few, and a script shrinks to few and plain
lines. It needs the package hypothesis, which the tools don't.
"""
from collections.abc import Collection
from typing import Any

from hypothesis import strategies as st

from mqroute_tools.script.output import Command
from mqroute_tools.search.shrinking import connected

__all__ = ["PARTS", "filters", "scripts", "topics"]

PARTS = ("groups", "retained", "wildcards", "identifiers", "sessions", "expiry", "options",
         "dollar", "qos", "clock")
CLIENTS = ("a", "b", "c")
LEVELS = ("x", "y", "", "X", "\u00e9")
DOLLAR = ("$x", "$y")
SHARES = ("g", "h")
PAYLOADS = ("1", "2", "", "\u00e9")
IDENTIFIERS = (1, 2, 268_435_455)
SECONDS = (1, 2, 1000, 4_294_967_295)
MOST_LEVELS, MOST_LINES = 3, 30

Uses = Collection[str]
Strategy = Any  # hypothesis' own type: it may not be installed where types are read


def topics(dollar: bool = True) -> Strategy:
    """Topic names of few levels."""
    first = st.sampled_from(LEVELS + (DOLLAR if dollar else ()))
    rest = st.lists(st.sampled_from(LEVELS), max_size=MOST_LEVELS - 1)
    return st.tuples(first, rest).map(lambda it: "/".join((it[0], *it[1])) or "x")


def filters(wildcards: bool = True, groups: bool = True, dollar: bool = True) -> Strategy:
    """Topic filters, shared ones too, that match such topics now and then."""
    plain = topics(dollar)
    if wildcards:
        plain = st.one_of(plain, st.builds(widened, topics(dollar), st.sets(
            st.integers(0, MOST_LEVELS - 1)), st.booleans()))
    if not groups:
        return plain
    return st.one_of(plain, st.builds("$share/{}/{}".format, st.sampled_from(SHARES), plain))


def widened(topic: str, places: set[int], open_end: bool) -> str:
    levels = ["+" if at in places else level for at, level in enumerate(topic.split("/"))]
    return "/".join([*levels, "#"] if open_end else levels)


def command(do: str, needed: dict[str, Strategy], optional: dict[str, Strategy]) -> Strategy:
    """A field that is left out is the simplest value of it."""
    return st.fixed_dictionaries({"do": st.just(do), "client": st.sampled_from(CLIENTS), **needed},
                                 optional=optional)


def used(uses: Uses, by_part: dict[str, dict[str, Strategy]]) -> dict[str, Strategy]:
    """The fields of the parts that are used."""
    return {name: field for part, fields in by_part.items() if part in uses
            for name, field in fields.items()}


def commands(uses: Uses) -> Strategy:
    qos, kept = st.sampled_from((1, 2)), st.sampled_from(SECONDS)
    name = filters("wildcards" in uses, "groups" in uses, "dollar" in uses)
    subscribe = command("subscribe", {"filter": name}, used(uses, {
        "qos": {"qos": qos}, "identifiers": {"id": st.sampled_from(IDENTIFIERS)},
        "options": {"no_local": st.just(True), "rap": st.just(True), "handling": qos}}))
    publish = command(
        "publish", {"topic": topics("dollar" in uses), "payload": st.sampled_from(PAYLOADS)},
        used(uses, {"qos": {"qos": qos}, "retained": {"retain": st.just(True)},
                    "expiry": {"expiry": st.sampled_from((0, *SECONDS))}}))
    session = {"clean": st.just(False), "session_expiry": kept}
    kinds = [publish, subscribe, subscribe, publish, command("unsubscribe", {"filter": name}, {}),
             command("connect", {}, used(uses, {"sessions": session})),
             command("disconnect", {}, {})]
    if "clock" in uses:
        kinds.append(st.fixed_dictionaries({"do": st.just("advance"), "seconds": kept}))
    return st.one_of(*kinds).map(without_no_local_of_groups)


def without_no_local_of_groups(one: Command) -> Command:
    """Which MQTT doesn't allow."""
    shared = one.get("filter", "").startswith("$share/")
    return {name: value for name, value in one.items() if name != "no_local"} if shared else one


def scripts(without: Uses = (), most: int = MOST_LINES) -> Strategy:
    """Scripts of at most so many lines behind the first connects; `without` names PARTS that they
    don't use."""
    unknown = set(without) - set(PARTS)
    if unknown:
        raise ValueError(f"no part: {', '.join(sorted(unknown))}")
    first = [{"do": "connect", "client": client} for client in CLIENTS]
    lines = st.lists(commands(set(PARTS) - set(without)), max_size=most)
    return lines.map(lambda script: connected([*first, *script]))
