#!/usr/bin/env python3
"""Counts what commands cost the built program, and refuses more than is promised.

usage: costs.py [-v] [PROGRAM]. It counts instructions, blocks of memory and bytes (costs.c), and
no seconds: the counts are the same beside any load, and much the same on any machine. With -v all
of them are shown.

- Beside 10,000 things of each kind that a command has nothing to do with it takes about what it
  takes beside 100: no walk over sessions, trees or lists, and no index that is made anew.
- What a command concerns takes a bounded number of instructions and bytes for each, among so many
  that a look at all before it takes more.
- What is kept takes a bounded number of bytes for each, and so does what stays of what is gone.
- The copies of a message share its payload and its topic.
- Commands that end things take no memory for it.
- Commands that concern many thousands of things aren't refused for want of memory.
"""
import concurrent.futures
import itertools
import os
import pathlib
import sys
import tempfile

import costs_concerned as concerned
import costs_scripts as scripts
from costs_counter import Counter, Failed
from costs_judge import FEW, MANY, MORE_INSTRUCTIONS, at_most, for_each, middle, more_beside
from costs_judge import no_more
from faults import is_absent, status_of

TOP = pathlib.Path(__file__).resolve().parent.parent
PROGRAM = TOP / "bin/mqroute"
# Beside few things no command takes as many instructions.
MOST_INSTRUCTIONS = 100_000
# How many things a command concerns where no instructions are counted; how many copies of a long
# payload there are; how many things are kept. Each is measured with so many, and with twice as
# many.
SOME, COPIES, KEPT = 500, 20, 4_000
# A piece of the script is read at a time, 64 KiB of it; with as much again for lists.
MOST_AT_START = 300_000


def at_once(work, cases):
    """The results of the cases, in their order, as many at a time as there are processors."""
    with concurrent.futures.ThreadPoolExecutor(os.cpu_count()) as workers:
        return list(workers.map(lambda case: work(*case), cases))


def answered(name, answers, copies, closing):
    """Stops where a line isn't answered as it should be, since its cost would say nothing. The line
    that answers a stat has neither a reason nor a refusal."""
    last = answers[-1] if answers else {"refused": "nothing"}
    if len(answers) != copies + 1 or last.get("refused", last.get("reason", 0)) != closing:
        raise Failed(f"{name} is answered by {len(answers)} lines, the last {last}")


def beside(counter, kinds, n, most, times=scripts.TIMES):
    """What each command costs beside n things of each of these kinds, given so many times; of its
    instructions so many are counted."""
    before = [*scripts.prepared(), *(line for kind in kinds for line in scripts.THINGS[kind](n))]
    turns = [(command, turn) for command in scripts.COMMANDS for turn in range(times)]
    rows = scripts.access_list(n if "users of the access list" in kinds else 0)
    run = counter.run(before, [command.line(turn) for command, turn in turns], rows,
                      scripts.options(kinds, n, times),
                      [most[command.name] for command, _ in turns])
    for (command, _), answers in zip(turns, run.answers):
        answered(command.name, answers, command.copies, command.closing)
    return {command.name: middle(run.costs[at * times:(at + 1) * times])
            for at, command in enumerate(scripts.COMMANDS)}


def by_kind(counter, kinds, few, most, grown):
    """Which kind of thing it is beside which these commands grow."""
    alone = at_once(beside, [(counter, [kind], MANY, most, 1) for kind in kinds])
    return [check for kind, costs in zip(kinds, alone) for name in grown
            for check in more_beside(name, kind, few[name], costs[name]) if check.is_over()]


def growth(counter, things, kinds):
    """Each command beside few and beside many. There it is counted until it has taken too much, so
    that a walk over all of them doesn't take long here."""
    few = beside(counter, kinds, FEW, dict.fromkeys(scripts.NAMES, MOST_INSTRUCTIONS))
    if not any(cost.instructions for cost in few.values()):
        print("costs: instructions are left out: the processor doesn't stop at each of them here")
    most = {name: cost.instructions + MORE_INSTRUCTIONS + 1 for name, cost in few.items()}
    many = beside(counter, kinds, MANY, most)
    checks = {name: [at_most(f"{name} beside {FEW} {things}", "instructions", cost,
                             MOST_INSTRUCTIONS - 1),
                     *more_beside(name, things, cost, many[name])]
              for name, cost in few.items()}
    grown = [name for name, made in checks.items() if any(check.is_over() for check in made)]
    return [*itertools.chain(*checks.values()),
            *(by_kind(counter, kinds, few, most, grown) if grown and kinds[1:] else []),
            *(no_more(name, few[refused], few[name]) for name, refused in scripts.WITHOUT_MEMORY)]


def cost_of(counter, name, script, copies, long=0, most=(), rules="own"):
    """What a command costs behind what it concerns."""
    before, line = script
    options = ["--max-queued", str(len(before)), "--rules", rules]
    run = counter.run(before, [line], options=options, most=most, long=long)
    answered(name, run.answers[0], copies, 0)
    return run.costs[0]._replace(held=run.costs[0].held - run.before.held)


def concern(counter, one):
    """The bytes of a command that concerns some things, and of one that concerns twice as many."""
    few, many = (cost_of(counter, one.name, one.script(m), one.copies(m), rules=one.rules)
                 for m in (SOME, 2 * SOME))
    return [for_each(one.name, kind, few, many, SOME, most) for kind, most in one.bounds.items()]


def stepped(counter, one):
    """The same of its instructions. To count them takes a while, so they are counted until they are
    too many."""
    few, many = (cost_of(counter, one.name, one.script(m), one.copies(m), rules=one.rules,
                         most=[MOST_INSTRUCTIONS + 2 * one.instructions * m])
                 for m in (one.stepped, 2 * one.stepped))
    return [for_each(one.name, "instructions", few, many, one.stepped, one.instructions)]


def long_text(counter, text, name, script, copies, most):
    """The blocks of a payload's or a topic's length that each copy takes."""
    few, many = (cost_of(counter, name, script(n, **{text: concerned.LONG}), copies(n),
                         long=len(concerned.LONG)) for n in (COPIES, 2 * COPIES))
    return [for_each(f"{name} with a long {text}", "long_blocks", few, many, COPIES, most)]


def kept(counter, what, kind, most):
    """What each thing of a kind takes while it is kept and while it comes, or what stays of it."""
    few, many = (counter.run([scripts.line("connect", "client-0"), *scripts.THINGS[kind](n)],
                             rows=scripts.access_list(n) if "list" in kind else None,
                             options=scripts.options([kind], n)).before for n in (KEPT, 2 * KEPT))
    return [for_each(kind, what, few, many, KEPT, most)]


def start(counter):
    """What the program takes before it reads a line."""
    return [at_most("before the first line", "room", counter.run([]).before, MOST_AT_START)]


def large(counter, one):
    """Where a command concerns many thousands of things, it isn't refused memory."""
    n = concerned.LARGE[one.script]
    cost_of(counter, f"{one.name}, {n:,} of them,", one.script(n), one.copies(n))
    return []


def parts():
    """What is checked: a function, and what it is given behind the counter."""
    yield growth, "things of each kind", [kind for kind in scripts.THINGS if kind != "siblings"]
    yield growth, "siblings", ["siblings"]
    yield start,
    yield from ((stepped, one) for one in concerned.CONCERNS)
    yield from ((concern, one) for one in concerned.CONCERNS if one.bounds)
    yield from ((long_text, *one) for one in concerned.LONG_TEXTS)
    yield from ((kept, "room", *one) for one in concerned.KEPT.items())
    yield from ((kept, "held", *one) for one in concerned.LEFT.items())
    yield from ((large, one) for one in {one.script: one for one in concerned.CONCERNS}.values())


def checked(counter, part, *given):
    """What comes of a part; what fails in it is a text."""
    try:
        return part(counter, *given)
    except Failed as failed:
        return [f"{part.__name__}: {failed}"]


def main():
    words = [word for word in sys.argv[1:] if word != "-v"]
    program = pathlib.Path(words[0]) if words else PROGRAM
    if is_absent("costs", program):
        return 1
    with tempfile.TemporaryDirectory() as folder:
        counter = Counter(program, folder)
        found = [one for many in at_once(checked, [(counter, *part) for part in parts()])
                 for one in many]
    if "-v" in sys.argv:
        print(*found, sep="\n")
    faults = [one for one in found if isinstance(one, str) or one.is_over()]
    return status_of("costs", faults, f"{len(found)} counts checked, {len(faults)} faults")


if __name__ == "__main__":
    sys.exit(main())
