#!/usr/bin/env python3
"""Runs the conformance cases on the small broker of conformance/ and on its mutants.

    tests/statements.py [--write] [STATEMENT..]

The plain broker has to pass each case, and each case has to fail somewhere. A statement of
conformance/statements counts as covered only if each of its mutants fails a case that names it. The
table of that is docs/reference/statements.md, which --write writes. Cases with access lists are
left out: the small broker has none. It needs python3-paho-mqtt.
"""
import argparse
import collections
import concurrent.futures
import json
import os
import pathlib
import shutil
import subprocess
import sys
import tempfile

TOP = pathlib.Path(__file__).resolve().parent.parent
CASES = TOP / "conformance"
TABLE = TOP / "docs/reference/statements.md"
sys.path[:0] = [str(CASES), str(TOP / "tools")]
from mutants import mutants  # noqa: E402

WITHOUT = "12-access-lists"
PAHO = "/usr/bin/python3"  # which has Debian's python3-paho-mqtt
# Seconds. The longer ones are for a machine that is busy: a broker that couldn't be asked, or a
# plain one that differs, is run again.
PATIENCES = ("1.5", "15", "60")
# Brokers that are wrong in many ways: what none of them fails, no broker may.
CRUDE = ("CRUDE-deaf", "CRUDE-lavish", "CRUDE-forgetful", "CRUDE-odd")
HEAD = """# Statements and their cases

Made by `tests/statements.py --write`, which `make check` runs. It lists the normative statements of
MQTT 5.0 that speak of routing, each in words of ours. A statement is covered if a broker that
breaks it, and nothing else, fails a case that names it. Such brokers are the mutants of the small
broker in `conformance/`, which itself passes all cases; a statement may have more than one. A
statement without a case says why it has none.
"""


def has_paho(python):
    return subprocess.run([python, "-c", "import paho.mqtt.client"],
                          capture_output=True).returncode == 0


def statements():
    """What each says, and why no case can be about it, or an empty text."""
    lines = (CASES / "statements").read_text("utf-8").splitlines()
    rows = [line.split("\t") for line in lines if not line.startswith("#")]
    return {row[0]: (row[1], row[2] if len(row) > 2 else "") for row in rows}


def cases():
    """The statements that each names, by section and name."""
    found = {}
    for index in sorted(CASES.glob("*/cases.json")):
        section = index.parent.name
        for name, about in json.loads(index.read_text("utf-8"))["cases"].items():
            if section != WITHOUT:
                found[section, name] = [one for one in about["sections"] if "MQTT-" in one]
    return found


class Runs:
    """Runs cases on a broker, in a process of its own for each run."""

    def __init__(self, python):
        self.python = python

    def failed(self, mutant, chosen):
        """Those of the cases that differ on a mutant, or on the plain broker, which has no name;
        and what else was said."""
        differing, odd = set(), ""
        with tempfile.TemporaryDirectory() as folder:
            copy(chosen, folder)
            for patience in PATIENCES:
                differing, odd = self.run(mutant, folder, patience)
                if not odd and (mutant or not differing):
                    break
        return differing, odd

    def run(self, mutant, folder, patience):
        with subprocess.Popen([sys.executable, CASES / "broker.py", "0", mutant],
                              stdout=subprocess.PIPE, stderr=subprocess.DEVNULL) as broker:
            try:
                port = broker.stdout.readline().decode().strip()
                return self.differing(port, folder, patience)
            finally:
                broker.kill()

    def differing(self, port, folder, patience):
        done = subprocess.run(
            [self.python, TOP / "tools/replay.py", "--port", port, "--patience", patience,
             "--all", folder, "--json"], capture_output=True, text=True)
        lines = [json.loads(line) for line in done.stdout.splitlines()]
        odd = done.stderr if done.returncode == 2 else ""
        return {(one["section"], one["case"]) for one in lines
                if one.get("outcome") == "differs"}, odd


def copy(chosen, folder):
    """The chosen cases, as a folder of their own."""
    about = collections.defaultdict(dict)
    for section, name in chosen:
        place = pathlib.Path(folder, section)
        place.mkdir(exist_ok=True)
        for file in CASES.glob(f"{section}/{name}.*"):
            shutil.copy(file, place)
        held = json.loads((CASES / section / "cases.json").read_text("utf-8"))
        about[section][name] = held["cases"][name]
    for section, held in about.items():
        text = json.dumps({"title": section, "cases": held})
        pathlib.Path(folder, section, "cases.json").write_text(text)


def side_by_side(runs, wanted):
    """By name of a mutant, which of its cases it fails; the plain broker's name is empty."""
    with concurrent.futures.ThreadPoolExecutor(os.cpu_count() or 1) as pool:
        begun = {name: pool.submit(runs.failed, name.partition("/")[0], chosen)
                 for name, chosen in wanted.items()}
        return {name: one.result() for name, one in begun.items()}


def by_section(name, found):
    """A run for each section: they take their time by waiting."""
    sections = collections.defaultdict(list)
    for case in found:
        sections[case[0]].append(case)
    return {f"{name}/{section}": chosen for section, chosen in sections.items()}


def naming(found, statement):
    return [case for case, named in found.items() if statement in named]


def wanted_runs(found, held, chosen):
    """By name of a run, its cases."""
    of_mutants = {name: naming(found, one.statement) for name, one in held.items()
                  if not name.startswith("CRUDE") and (not chosen or one.statement in chosen)}
    runs = {name: some for name, some in of_mutants.items() if some}
    if not chosen:
        for name in ("", *CRUDE):
            runs |= by_section(name, found)
    return runs


def faults_of_statements(said, found, held, failed):
    """Texts of what isn't as it has to be."""
    for statement, (_, why) in said.items():
        own = [name for name, one in held.items() if one.statement == statement]
        if bool(own) == bool(why):
            yield f"{statement}: {'a reason and a mutant' if own else 'no mutant and no reason'}"
        if own and not naming(found, statement):
            yield f"{statement}: no case names it"
        for name in own:
            if name in failed and not failed[name][0]:
                yield f"{name}: no case that names it fails where {held[name].says}"
    for name, one in held.items():
        if one.statement not in said and not name.startswith("CRUDE"):
            yield f"{name}: {one.statement} isn't in conformance/statements"
    for case, named in found.items():
        for one in named:
            if one not in said:
                yield f"{'/'.join(case)} names {one}, which conformance/statements hasn't"


def faults_of_cases(found, failed):
    plain = {case for name, (some, _) in failed.items() if name.startswith("/") for case in some}
    for case in sorted(plain):
        yield f"{'/'.join(case)} fails on the plain broker"
    anywhere = {case for name, (some, _) in failed.items() if not name.startswith("/")
                for case in some}
    for case in sorted(set(found) - anywhere):
        yield f"{'/'.join(case)} fails on no mutant"


def table(said, found, held):
    rows = ["| Statement | Says | Cases that name it | A broker that fails them |",
            "|---|---|---|---|"]
    for statement, (says, why) in said.items():
        own = "; ".join(one.says for one in held.values() if one.statement == statement)
        names = ", ".join(f"`{case[0][:2]}/{case[1]}`" for case in naming(found, statement))
        cells = [statement, says, names or why, own or "-"]
        rows.append("| " + " | ".join(cells) + " |")
    covered = sum(1 for _, why in said.values() if not why)
    sums = f"{len(said)} statements: {covered} are covered, by {len(held) - len(CRUDE)} mutants."
    return f"{HEAD}\n{sums}\n\n" + "\n".join(rows) + "\n"


def main():
    parser = argparse.ArgumentParser(description=__doc__.partition("\n")[0])
    parser.add_argument("--write", action="store_true")
    parser.add_argument("statement", nargs="*")
    options = parser.parse_args()
    python = next((one for one in (sys.executable, PAHO) if has_paho(one)), None)
    if python is None:
        print("statements: left out: there is no python3-paho-mqtt")
        return 0
    said, found, held = statements(), cases(), mutants()
    failed = side_by_side(Runs(python), wanted_runs(found, held, options.statement))
    faults = [f"{name}: {odd.strip()}" for name, (_, odd) in failed.items() if odd]
    if not options.statement:
        faults += [*faults_of_cases(found, failed)]
        text = table(said, found, held)
        if options.write:
            TABLE.write_text(text, "utf-8")
        elif not TABLE.exists() or TABLE.read_text("utf-8") != text:
            faults.append("docs/reference/statements.md is of other statements: --write")
    faults += [*faults_of_statements(said, found, held, failed)]
    for fault in faults:
        print(f"statements: {fault}")
    print(f"statements: {len(said)}; {len(found)} cases, {len(held)} mutants, {len(faults)} faults")
    return 1 if faults else 0


if __name__ == "__main__":
    sys.exit(main())
