#!/usr/bin/env python3
"""Shows answers at once: of examples/new-access-list, of a script of one's own, or of a day's log
under two lists of one's own.

Where bin/mqroute is built it runs that. Else the toolchain compiles mqroute without any proof (`rt
try`). Where there is no toolchain either, the plain reader answers (tools/mqroute_tools/plain). A
line on standard error says which, and how long it takes. Of a log the whole preview is shown where
both programs are built, and else who loses what.
"""
import argparse
import os
import pathlib
import re
import shutil
import subprocess
import sys
import tempfile
import time
from typing import NamedTuple

TOP = pathlib.Path(__file__).resolve().parent.parent
PROGRAM, ACL_PROGRAM = TOP / "bin/mqroute", TOP / "bin/mqroute-acl"
EXAMPLE = TOP / "examples/new-access-list"
UNPROVED = ("This run is unproved: mqroute is compiled as it stands, which takes a minute or two. "
            "`make` builds the proved program.")
PLAIN = ("These answers are unproved: there is no rt on the PATH, so the plain reader gives them "
         "(Python). The proved program: \"Get it\" in README.md.")
PART = ("What follows is who loses which messages. The whole preview, with the rights that nobody "
        "used that day, takes the built programs: \"Get it\" in README.md.")
OLD = "The sources are newer than bin/mqroute: `make` builds it anew."


def fail(words):
    print(f"make run: {words}", file=sys.stderr)
    sys.exit(2)


def is_old(program):
    built = program.stat().st_mtime
    return any(path.stat().st_mtime > built for path in TOP.glob("crates/*/src/**/*.rt"))


class Case(NamedTuple):
    """A script, the access list or none, and the rules."""
    script: pathlib.Path
    access_list: pathlib.Path | str = ""
    rules: str = "own"

    def words(self, access_list):
        """With which it is run, where its list is known by this name."""
        return ["--rules", self.rules, *(["--acl-file", access_list] if self.access_list else [])]


def built_answers(cases):
    """What the built program writes of each case, and its status."""
    for case in cases:
        done = subprocess.run([PROGRAM, *case.words(case.access_list), case.script],
                              stdout=subprocess.PIPE)
        yield done.stdout, done.returncode


def plain_answers(cases):
    """The same of the plain reader."""
    print(PLAIN, file=sys.stderr, flush=True)
    for case in cases:
        words = [*case.words(case.access_list), case.script]
        done = subprocess.run([sys.executable, "-m", "mqroute_tools.plain", *words],
                              env={**os.environ, "PYTHONPATH": str(TOP / "tools")},
                              stdout=subprocess.PIPE)
        yield done.stdout, done.returncode


def lay_out(cases, folder):
    """Writes the cases as `rt try --cases` reads them; answers the options
    that name the access lists."""
    options = []
    for number, case in enumerate(cases):
        shutil.copyfile(case.script, folder / f"{number}")
        words = [*case.words(f"list-{number}"), "-"]
        if case.access_list:
            options += ["--data", f"list-{number}={pathlib.Path(case.access_list).resolve()}"]
        (folder / f"{number}.args").write_text("\n".join(words) + "\n", encoding="utf-8")
    return options


def parts_of(text):
    """The answers of each case: behind the line `== NUMBER`."""
    parts = {}
    for line in text.splitlines(keepends=True):
        if line.startswith(b"== "):
            part = parts.setdefault(int(line[3:]), [])
        else:
            part.append(line)
    return {number: b"".join(lines) for number, lines in parts.items()}


def statuses_of(text):
    """The status of each case that ended: of the lines `case=NUMBER run=ended status=STATUS ..`."""
    ended = re.findall(rb"^case=(\d+) run=ended status=(\d+)", text, re.M)
    return {int(number): int(status) for number, status in ended}


def show_seconds(run):
    """How long it has taken so far, on a terminal, until it ends."""
    began = time.monotonic()
    while run.poll() is None:
        if sys.stderr.isatty():
            print(f"\r{time.monotonic() - began:.0f} s", end="", file=sys.stderr, flush=True)
        time.sleep(0.2)
    if sys.stderr.isatty():
        print("\r\x1b[K", end="", file=sys.stderr, flush=True)


def ran(command):
    """What a command writes, on standard output and on standard error."""
    with tempfile.TemporaryFile() as out, tempfile.TemporaryFile() as err:
        with subprocess.Popen(command, cwd=TOP / "crates/mqroute", stdout=out,
                              stderr=err) as run:
            show_seconds(run)
        out.seek(0)
        err.seek(0)
        return out.read(), err.read()


def tried_answers(cases):
    """The same of the program that `rt try` compiles."""
    print(UNPROVED, file=sys.stderr, flush=True)
    with tempfile.TemporaryDirectory() as name:
        folder = pathlib.Path(name)
        command = ["rt", "try", "--seconds", "600", *lay_out(cases, folder), "--cases", folder]
        written, said = ran(command)
    parts, statuses = parts_of(written), statuses_of(said)
    for number in range(len(cases)):
        if number not in statuses:
            sys.stderr.write((written[:2000] + said).decode(errors="replace"))
            fail("rt try gave no answer (of more than 1 MiB it gives none: `make` builds the "
                 "program)")
        yield parts.get(number, b""), statuses[number]


def answers(cases):
    if not PROGRAM.exists():
        by = plain_answers if shutil.which("rt") is None else tried_answers
        return list(by(cases))
    if is_old(PROGRAM):
        print(OLD, file=sys.stderr)
    return list(built_answers(cases))


def show_losses(cases, names, folder, shown):
    """Who loses what between the first case and the second; of each its answers too, if they are to
    be shown. The status."""
    outputs = []
    for case, name, (text, status) in zip(cases, names, answers(cases)):
        if status > 1:
            return status
        if shown:
            print(f"{case.script.relative_to(TOP)} under {name}:\n{text.decode()}", flush=True)
        outputs.append(folder / f"{len(outputs)}.jsonl")
        outputs[-1].write_bytes(text)
    print("Who loses what (tools/who_loses.py):", flush=True)
    words = [TOP / "tools/who_loses.py", cases[0].script, *outputs]
    status = subprocess.run(words).returncode
    return status if status > 1 else 0


def show_example():
    lists = [EXAMPLE / "current.acl", EXAMPLE / "proposed.acl"]
    cases = [Case(EXAMPLE / "script.jsonl", it) for it in lists]
    with tempfile.TemporaryDirectory() as name:
        return show_losses(cases, [it.name for it in lists], pathlib.Path(name), True)


def show_day(log, current, proposed):
    """The preview of a day, or as much of it as there are programs for."""
    if PROGRAM.exists() and ACL_PROGRAM.exists():
        done = subprocess.run([TOP / "tools/preview.py", current, proposed, log])
        return done.returncode if done.returncode > 1 else 0
    with tempfile.TemporaryDirectory() as name:
        script = pathlib.Path(name, "day.jsonl")
        with open(script, "wb") as out:
            status = subprocess.run([TOP / "tools/log_to_script.py", log], stdout=out).returncode
        if status > 1:
            return status
        print(PART, file=sys.stderr, flush=True)
        cases = [Case(script, it, "mosquitto") for it in (current, proposed)]
        return show_losses(cases, [current, proposed], pathlib.Path(name), False)


def show(script, access_list):
    (text, status), = answers([Case(script, access_list)])
    sys.stdout.buffer.write(text)
    return status if status > 1 else 0


def main():
    parser = argparse.ArgumentParser(description=__doc__.partition("\n\n")[0])
    parser.add_argument(
        "script", nargs="?", default="", help="the script (the example, under both of its lists)")
    parser.add_argument("--acl", default="", help="the access list (none: all is allowed)")
    parser.add_argument("--log", default="", help="a day's log, in place of the script")
    parser.add_argument("--current", default="", help="the list of that day")
    parser.add_argument("--proposed", default="", help="the list that is to take its place")
    asked = parser.parse_args()
    if asked.acl and not asked.script:
        fail("ACL= wants a script beside it: make run SCRIPT=mine.jsonl ACL=mine.acl")
    day = [asked.log, asked.current, asked.proposed]
    if any(day) and not all(day):
        fail("LOG=, CURRENT= and PROPOSED= go together: make run LOG=mosquitto.log "
             "CURRENT=current.acl PROPOSED=proposed.acl")
    if asked.log and asked.script:
        fail("SCRIPT= and LOG= are two days: give one of them")
    for name in (asked.script, asked.acl, *day):
        if name and not pathlib.Path(name).is_file():
            fail(f"{name}: no such file")
    if asked.log:
        return show_day(*day)
    return show(asked.script, asked.acl) if asked.script else show_example()


if __name__ == "__main__":
    sys.exit(main())
