#!/usr/bin/env python3
"""Tries the must-fail edits that the gate leaves out. They stand in dev/edits/CRATE.

usage: edits.py [CRATE..]         those of these crates, or all: the prover has to refuse each
       edits.py --in-turn MINUTES those of one crate, in turn by the number of commits, as many as
                                  so many minutes suffice for
       edits.py --compiled        has the compiler read all of them, and those of the gate, over
                                  the sources as they are

Each says in its first line what stands for it in the gate (docs/explanation/gate.md): a clause of a
crate above, whose proof needs what the edit takes away, or an edit of the gate, or nothing. In turn
come the crates of those with nothing first. Made for rattle-kit-13f, whose `rt ci CRATE` takes what
is proved from where the toolchain keeps it; in CI, where it takes no names, `rt ci` goes over all.
With a kit that knows of no names, `rt must-fail CRATE` proves the crates below in a copy. Ends with
0 where each that was tried is refused, or where each is compiled, and else with 1.
"""
import collections
import os
import pathlib
import re
import shutil
import signal
import subprocess
import sys
import tempfile
import threading
import time
from collections.abc import Iterator
from typing import NamedTuple

import toolchain

TOP = pathlib.Path(__file__).resolve().parent.parent
EDITS = TOP / "dev" / "edits"
PROGRAM = "mqroute_acl"  # The one with edits. All libraries are compiled with it.
# What is said of an edit that isn't refused.
FAILS = re.compile(r": (NOT REFUSED|BAD EDIT)")
SHOWN = 20  # lines of what `rt` said, where it fails
# Where the compiler writes which stages it has ended, and how it names the one that refuses code.
STAGES, FRONT_END = "stages", "stage front-end "


class Edit(NamedTuple):
    """An edit: what stands for it, and its texts by file."""
    path: pathlib.Path
    stands: str
    pairs: list[tuple[str, str, str]]

    @property
    def crate(self) -> str:
        folder = self.path.parent
        return folder.parent.name if folder.name == "must-fail" else folder.name

    def __str__(self) -> str:
        return f"{self.crate}/{self.path.name}"


def read(path: pathlib.Path) -> Edit:
    """The edit in a file."""
    stands, file, old = "", "", ""
    pairs = []
    for line in path.read_text(encoding="utf-8").splitlines():
        field, _, text = line.partition(":")
        text = text.removeprefix(" ")
        if field == "stands":
            stands = text
        elif field == "file":
            file = text.strip()
        elif field == "old":
            old = text
        elif field == "new":
            pairs.append((file, old, text))
    return Edit(path, stands, pairs)


def edits_of(crate: str) -> list[Edit]:
    """The crate's edits, those first for which nothing stands."""
    found = [read(path) for path in sorted((EDITS / crate).glob("*.edit"))]
    return sorted(found, key=lambda edit: edit.stands != "none")


def edits_of_gate() -> list[Edit]:
    """Those that the gate tries, where one that isn't read fails nothing."""
    return [read(path) for path in sorted((TOP / "crates").glob("*/must-fail/*.edit"))]


def all_edits() -> list[Edit]:
    """Those that the gate leaves out, and those that it tries."""
    return [edit for crate in crates_with_edits() for edit in edits_of(crate)] + edits_of_gate()


def crates_with_edits() -> list[str]:
    """Those that have an edit for which nothing stands come first."""
    names = sorted(folder.name for folder in EDITS.iterdir() if folder.is_dir())
    return sorted(names, key=lambda name: edits_of(name)[0].stands != "none")


def copied(folder: pathlib.Path) -> None:
    """Copies what is proved, without edits."""
    left_out = shutil.ignore_patterns("out", "must-fail")
    shutil.copytree(TOP / "crates", folder / "crates", ignore=left_out)
    for name in ("crates.txt", "HANDLES"):
        shutil.copyfile(TOP / name, folder / name)


def put_edits(folder: pathlib.Path, crate: str) -> None:
    """Puts the crate's edits beside its sources, as the toolchain reads them."""
    to = folder / "crates" / crate / "must-fail"
    to.mkdir()
    for edit in edits_of(crate):
        _, _, rest = edit.path.read_text(encoding="utf-8").partition("\n")
        (to / edit.path.name).write_text(rest, encoding="utf-8")


class Stop:
    """Ends a run, and all that it started, after some minutes."""

    def __init__(self, run: subprocess.Popen[str], minutes: float | None) -> None:
        self.run, self.is_due = run, False
        self.timer = threading.Timer(60 * (minutes or 0), self.end)
        if minutes is not None:
            self.timer.start()

    def end(self) -> None:
        self.is_due = True
        os.killpg(self.run.pid, signal.SIGTERM)

    def __enter__(self) -> "Stop":
        return self

    def __exit__(self, *_: object) -> None:
        self.timer.cancel()


def command_for(crates: list[str]) -> list[str]:
    """What has the edits of these crates tried. In CI `rt ci` takes no names, since with them it
    isn't the gate: there it goes over all crates, which it kept when the gate passed them."""
    if not toolchain.ci_takes_names():
        print(f"edits.py: made for {toolchain.MADE_FOR}; `rt ci` of {toolchain.version()} takes no "
              "names of crates: `rt must-fail` proves the crates below first", file=sys.stderr)
        return ["rt", "must-fail", *crates]
    return ["rt", "ci"] if os.environ.get("CI") == "true" else ["rt", "ci", *crates]


def tried(folder: pathlib.Path, crates: list[str], minutes: float | None = None) -> int:
    """Has the edits tried, and shows what is said of each, and how many weren't tried in time."""
    status, count = 0, 0
    last: collections.deque[str] = collections.deque(maxlen=SHOWN)
    with subprocess.Popen(command_for(crates), cwd=folder, stdout=subprocess.PIPE,
                          stderr=subprocess.STDOUT, text=True, errors="replace",
                          start_new_session=True) as run, Stop(run, minutes) as stop:
        for line in run.stdout or ():
            last.append(line)
            if line.startswith("rt: must-fail"):
                print(line, end="", flush=True)
                count += 1
                status |= FAILS.search(line) is not None
    wanted = sum(len(edits_of(crate)) for crate in crates)
    if stop.is_due:
        print(f"edits.py: stopped after {minutes:g} minutes: {count} of {wanted} edits were tried")
        return status
    if run.returncode:
        print(*last, sep="", end="")
        return 1
    print(f"edits.py: {count} of {wanted} edits were tried")
    return status | (count < wanted)


def tried_of(crates: list[str], minutes: float | None = None) -> int:
    """Tries the edits of these crates in a copy."""
    with tempfile.TemporaryDirectory(prefix="mqroute-edits-") as name:
        folder = pathlib.Path(name)
        copied(folder)
        for crate in crates:
            put_edits(folder, crate)
        return tried(folder, crates, minutes)


def commits() -> int | None:
    """How many commits there are; None in a shallow clone, or where git can't say."""
    def git(*words: str) -> str:
        return subprocess.run(["git", *words], cwd=TOP, capture_output=True, text=True,
                              check=True).stdout.strip()
    try:
        if git("rev-parse", "--is-shallow-repository") == "false":
            return int(git("rev-list", "--count", "HEAD"))
    except (OSError, ValueError, subprocess.CalledProcessError):
        pass
    return None


def in_turn(minutes: float) -> int:
    """Tries the edits of the crate whose turn it is, as long as that is."""
    names, count = crates_with_edits(), commits()
    if count is None:
        print("edits.py: git can't count the commits here: the first crate is tried")
    crate = names[(count or 0) % len(names)]
    print(f"edits.py: {crate}, {len(edits_of(crate))} edits")
    return tried_of([crate], minutes)


class NotApplied(Exception):
    """An edit whose text doesn't stand in its file exactly once."""


def applied(edit: Edit, texts: dict[str, str]) -> dict[str, str]:
    """The texts of the files that the edit changes, where some may have been changed before."""
    made: dict[str, str] = {}
    for file, old, new in edit.pairs:
        path = f"crates/{edit.crate}/{file}"
        text = made.get(path) or texts.get(path) or (TOP / path).read_text(encoding="utf-8")
        if text.count(old) != 1:
            raise NotApplied(f"{edit}: an old text stands {text.count(old)} times in {file}")
        made[path] = text.replace(old, new)
    return made


class Batch:
    """Edits whose texts don't meet, and that are compiled together."""

    def __init__(self) -> None:
        self.edits: list[Edit] = []
        self.texts: dict[str, str] = {}

    def takes(self, edit: Edit) -> bool:
        try:
            self.texts.update(applied(edit, self.texts))
        except NotApplied:
            return False
        self.edits.append(edit)
        return True


def batches(edits: list[Edit]) -> list[Batch]:
    """As few as may be. An edit that can't be applied to the sources is an error."""
    made: list[Batch] = []
    for edit in edits:
        applied(edit, {})
        if not any(batch.takes(edit) for batch in made):
            made.append(Batch())
            made[-1].takes(edit)
    return made


def crates_below(wanted: set[str]) -> dict[str, list[str]]:
    """These crates and what they stand on, with what each uses."""
    lines = (TOP / "crates.txt").read_text(encoding="utf-8").splitlines()
    rows = {name.split()[0]: used.split() for name, _, used in
            (line.partition("#")[0].partition(":") for line in lines) if name.strip()}
    found: dict[str, list[str]] = {}
    left = list(wanted)
    while left:
        name = left.pop()
        if name in rows and name not in found:
            found[name] = rows[name]
            left += rows[name]
    return found


def compiler_words(folder: pathlib.Path, crates: dict[str, list[str]]) -> list[str]:
    """The call that reads all of these crates as source. No function has the name, so that it
    proves nothing."""
    kit = toolchain.folder()
    root = folder / "root" / "lib.rt"
    words = [f"{kit}/bin/rattle", "check", "--only", "no_such_function", "--jobs", "1",
             "--stage-times", f"{folder}/{STAGES}"]
    if PROGRAM in crates:
        words += ["--crate-name", PROGRAM, f"{folder}/crates/{PROGRAM}/src/main.rt"]
    else:
        root.parent.mkdir()
        root.write_text("#![tactic(auto)]\n", encoding="utf-8")
        words += ["--crate-name", "root", str(root)]
    for name, used in crates.items():
        if name != PROGRAM:
            source = f"{folder}/crates/{name}/src/lib.rt"
            words += ["--lib", f"{name}:{','.join(['std', *used])}={source}"]
    for name in sorted({"std"}.union(*crates.values()) - crates.keys()):
        words += ["--extern", f"{name}={kit}/rlibs/{name}.rlib"]
    return [*words, "-L", f"dependency={kit}/rlibs",
            "--antt-project", f"{kit}/rattle/logic/antt-project.json",
            "--logic-built", f"{kit}/logic_built"]


def seconds_of(process: int) -> float:
    """The processor's seconds that a process has taken."""
    fields = pathlib.Path(f"/proc/{process}/stat").read_text(encoding="utf-8").rpartition(")")[2]
    return sum(map(int, fields.split()[11:13])) / os.sysconf("SC_CLK_TCK")


def is_read(process: int, stages: pathlib.Path, since: list[float]) -> bool:
    """Whether the compiler has ended the stage that refuses code, and gone on for two seconds."""
    if stages.is_file() and FRONT_END in stages.read_text(encoding="utf-8"):
        since.append(seconds_of(process))
    return bool(since) and since[-1] - since[0] > 2


def front_end(folder: pathlib.Path, words: list[str]) -> list[str] | None:
    """What the compiler says if it refuses the sources; None if it has read and lowered them. What
    it would do next, for proofs, takes three times as long, so it is ended there."""
    with open(folder / "said", "w+", encoding="utf-8", errors="replace") as out:
        run = subprocess.Popen(words, cwd=folder, stdout=out, stderr=subprocess.STDOUT)
        since: list[float] = []
        try:
            while run.poll() is None:
                if is_read(run.pid, folder / STAGES, since):
                    return None
                time.sleep(0.2)
        finally:
            run.kill()
            run.wait()
        out.seek(0)
        said = out.read().replace(f"{folder}/", "")
    if run.returncode == 2 and "no function `no_such_function`" in said:
        return None
    return said.splitlines() or [f"the compiler ended with {run.returncode}"]


def faults_of(edits: list[Edit], texts: dict[str, str], above: set[str]) -> list[str]:
    """What the compiler says of the sources with these texts, and of these crates above."""
    crates = crates_below({edit.crate for edit in edits} | above)
    with tempfile.TemporaryDirectory(prefix="mqroute-edits-") as name:
        folder = pathlib.Path(name)
        for crate in crates:
            shutil.copytree(TOP / "crates" / crate, folder / "crates" / crate,
                            ignore=shutil.ignore_patterns("out", "must-fail"))
        for path, text in texts.items():
            (folder / path).write_text(text, encoding="utf-8")
        said = front_end(folder, compiler_words(folder, crates))
    return [line for line in said or () if re.search(r"\berror\b", line)][:6] or (said or [])[-6:]


def by_themselves(batch: Batch, named: set[str]) -> Iterator[str]:
    """Which edits the compiler refuses by themselves, where it finds faults in these crates with
    all of them: those of the crates themselves, and if none of these is at fault those of crates
    below. Where each compiles, two of them only clash."""
    for crates in (named, crates_below(named).keys() - named):
        found = False
        for edit in batch.edits:
            if edit.crate in crates:
                for fault in faults_of([edit], applied(edit, {}), named)[:1]:
                    found = True
                    yield f"{edit}: {fault}"
        if found:
            return


def not_compiled() -> Iterator[str]:
    """Each edit that doesn't reach the prover, with what is said of it."""
    try:
        made = batches(all_edits())
    except (NotApplied, OSError) as fault:
        yield str(fault)
        return
    for batch in made:
        faults = faults_of(batch.edits, batch.texts, set())
        named = set(re.findall(r"\bcrates/(\w+)/", "\n".join(faults)))
        yield from by_themselves(batch, named) if named else faults


def compiled() -> int:
    """Has the compiler read all edits."""
    if toolchain.folder() is None:
        print("edits: left out, since there is no toolchain")
        return 0
    faults = list(not_compiled())
    for fault in faults:
        print(f"edits: {fault}")
    print(f"edits: {len(all_edits())} are compiled, {len(faults)} faults")
    return 1 if faults else 0


def main() -> int:
    """Tries the edits of the crates that are named, or does what the flag says."""
    if sys.argv[1:2] == ["--in-turn"] and len(sys.argv) == 3:
        return in_turn(float(sys.argv[2]))
    if sys.argv[1:] == ["--compiled"]:
        return compiled()
    known = crates_with_edits()
    unknown = [name for name in sys.argv[1:] if name not in known]
    if unknown:
        print(f"edits.py: no edits of {', '.join(unknown)} in {EDITS}", file=sys.stderr)
        return 2
    return tried_of(sys.argv[1:] or known)


if __name__ == "__main__":
    sys.exit(main())
