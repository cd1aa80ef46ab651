#!/usr/bin/env python3
"""Times mqroute-acl on made lists (acl_lists.py).

usage: acl.py PROGRAM. Prints a table: user seconds (best of three, or one that takes over five
seconds) and peak memory of each question. A run is stopped after 60 seconds.
"""
import os
import pathlib
import resource
import signal
import subprocess
import sys
import tempfile

import acl_lists as lists

ENOUGH = 5.0  # seconds of one run after which it isn't repeated
LIMIT = 60  # seconds after which one is stopped
PLANT = "the plant of `examples/topic-plan`"


def subscribes(users: list[str | None], filters: list[str]) -> list[str]:
    """A client of each user, and subscribes of these in turn."""
    script = []
    for place, user in enumerate(users):
        of_user = "" if user is None else f',"user":"{user}"'
        script.append(f'{{"do":"connect","client":"c{place}"{of_user}}}')
    for place, wanted in enumerate(filters):
        client = f"c{place % len(users)}"
        script.append(f'{{"do":"subscribe","client":"{client}","filter":"{wanted}"}}')
    return script


def machine_filters(count: int) -> list[str]:
    """Filters that are granted in part by the lists of `lists.made`."""
    halls = lists.HALLS
    return [(f"plant/hall-{machine % halls}/m{machine}/#", f"plant/+/m{machine}",
             f"plant/hall-{machine % halls}/#")[machine % 3] for machine in range(count)]


def claims(users: int, count: int) -> list[str]:
    """Lines of a file of expectations, of each kind in turn."""
    whom = [f"u{place % users}" for place in range(count)]
    lines = []
    for place, user in enumerate(whom):
        topic = f"plant/hall-{place % lists.HALLS}/m{place}"
        lines.append((f"{user} may some read {topic}/#", f"{user} may not write {topic}/+/set",
                      f"anyone may not write {topic}/secret except {user}",
                      f"others may not read {topic}/#")[place % 4])
    return lines


def questions() -> list[tuple[str, str, list[str], list[str] | None]]:
    """What is asked: the question, the list in words, the list, and a second list or a script."""
    plant, areas = lists.made(10_000, 1_000), lists.areas(10_000)
    plant_users: list[str | None] = [f"u{user}" for user in range(1_000)]
    service, many = lists.building(20, 800), lists.building(1_000)
    pattern = "pattern readwrite clients/%c/#"
    one_user = [pattern, "user ops", *lists.areas(200)]
    users = lists.of_users("area", 4_500, 10)
    hard = lists.reversed_pair
    floor = lists.made(1_000, 50)
    patterns = [f"pattern read own/{place}/%c/#" for place in range(50)]
    return [
        ("compare", "10,000 lines, 1,000 users, equal", plant, plant),
        ("compare", "one line more", plant, [*plant, "topic read other/#"]),
        ("compare", "one `%c` pattern more", plant, [*plant, "pattern read plant/%c/#"]),
        ("compare", "a service user of 800 lines, 1,027 in all, one changed",
         *lists.changed(service)),
        ("compare", "11,006 lines, 1,000 users, one changed", *lists.changed(many)),
        ("compare", "10,000 lines without a user, a `%c` pattern more", areas,
         [*areas, "pattern read status/%c/#"]),
        ("compare", "49,500 lines, 4,500 users, one line more", users,
         [*users, "topic read other/#"]),
        ("compare", "10,000 users of one line, all differ", lists.of_users("area", 10_000, 1),
         lists.of_users("zone", 10_000, 1)),
        ("compare", "`#` and 60 denies that meet, reversed", *hard(lists.denies_below(60))),
        ("compare", "160 lines of one name at four levels, reversed",
         *hard(lists.one_named(160, 4))),
        ("compare --plan", "100 rules, 1,100 lines, 100 users", *lists.replanned(100)),
        ("compare --plan", PLANT, *lists.plant()),
        ("lint", "10,000 lines, 1,000 users", plant, None),
        ("lint", "a service user of 800 lines, 1,027 in all", service, None),
        ("lint", "11,006 lines, 1,000 users", many, None),
        ("lint", "a user of 200 lines, and a `%c` pattern", one_user, None),
        ("lint", "60 lines that meet below each other", lists.grants_below(60), None),
        ("lint", "160 lines of one name at four levels", lists.one_named(160, 4), None),
        ("reach", "10,000 subscribes, 10,000 lines, 1,000 users", plant,
         subscribes(plant_users, machine_filters(10_000))),
        ("reach", "10,000 subscribes, 10,000 lines of one owner", areas,
         subscribes([None], [f"area/{place}/+" for place in range(10_000)])),
        ("who", "10,000 lines, 1,000 users: `plant/+/m7/#`", plant, ["plant/+/m7/#"]),
        ("who", "10,000 lines, 1,000 users: `plant/#`", plant, ["plant/#"]),
        ("test", "100 claims, 1,000 lines, 50 users", floor, claims(50, 100)),
        ("test", "100 claims, the same and 50 `%c` patterns", [*patterns, *floor],
         claims(50, 100)),
        ("test", "100 claims, 10,000 lines, 1,000 users", plant, claims(1_000, 100)),
    ]


def words_of(program: str, question: str, what: str, old: pathlib.Path, second: pathlib.Path,
             asked: list[str] | None) -> list[str]:
    """The words of a question about the list in the first file."""
    if question == "compare --plan":
        plan = old.parent / "plan"
        rules = lists.plant_plan() if what == PLANT else lists.plan()
        plan.write_text("\n".join(rules) + "\n")
        return [program, "compare", "--rules", "own", "--plan", str(plan), str(old), str(second)]
    begun = [program, question, "--rules", "own"]
    if question == "who" and asked is not None:
        return [*begun, str(old), asked[0]]
    if question == "test":
        return [*begun, str(second), str(old)]
    if asked is None:
        return [*begun, str(old)]
    option = ["--script"] if question == "reach" else []
    return [*begun, str(old), *option, str(second)]


def limited() -> None:
    resource.setrlimit(resource.RLIMIT_CPU, (LIMIT, LIMIT + 1))


def run_once(words: list[str]) -> tuple[float, int] | None:
    """User seconds and peak memory in KB, or none of a run that was stopped."""
    child = subprocess.Popen(words, stdout=subprocess.DEVNULL, stderr=subprocess.DEVNULL,
                             preexec_fn=limited)
    _, status, usage = os.wait4(child.pid, 0)
    ended = os.waitstatus_to_exitcode(status)
    if ended == -signal.SIGXCPU:
        return None
    if ended not in (0, 1):
        sys.exit(f"acl: {' '.join(words)} ended with status {ended}")
    return usage.ru_utime, usage.ru_maxrss


def measured(words: list[str]) -> str:
    """The two cells of the table."""
    run = run_once(words)
    if run is None:
        return f"over {LIMIT} | "
    best, peak = run
    for _ in range(2 if best < ENOUGH else 0):
        again = run_once(words)
        if again is not None:
            best, peak = min(best, again[0]), max(peak, again[1])
    return f"{best:.2f} | {peak:,}"


def main() -> int:
    program = sys.argv[1]
    print("| Question | List | Seconds | Peak KB |\n|---|---|---|---|")
    with tempfile.TemporaryDirectory() as name:
        folder = pathlib.Path(name)
        old, other = folder / "old", folder / "other"
        for question, what, rows, second in questions():
            old.write_text("\n".join(rows) + "\n")
            if second is not None:
                other.write_text("\n".join(second) + "\n")
            words = words_of(program, question, what, old, other, second)
            print(f"| {question} | {what} | {measured(words)} |", flush=True)
    return 0


sys.exit(main())
