#!/usr/bin/env python3
"""Proves mqroute and mqroute-acl with the crates below them, builds both, and puts them into bin/.

The toolchain's `rt ci` proves the crates side by side, over a copy that has what the programs stand
on and nothing more: no must-fail edits and no crate of tests. A line a crate shows how far it is,
and how long is left where an earlier run on this machine shows. A crate that fails ends the run,
with the end of its log. Made for rattle-kit-13f, which keeps what is proved: a run after one that
was stopped goes on where that was, and the gate proves none of it again. Older kits keep nothing;
then this says so, and does the same from nothing.
"""
import argparse
import contextlib
import json
import os
import pathlib
import re
import shutil
import signal
import subprocess
import sys
import tempfile
import time

import toolchain

sys.path.append(str(pathlib.Path(__file__).resolve().parent.parent / "tools"))
from mqroute_tools.common.built import NAME as RECORD, line_of  # noqa: E402
from mqroute_tools.common.version import UNKNOWN, of_clone  # noqa: E402

TOP = pathlib.Path(__file__).resolve().parent.parent
BIN = TOP / "bin"
LOG = BIN / "build.log"
PROGRAMS = {"mqroute": "mqroute", "mqroute-acl": "mqroute_acl"}
ENDED = re.compile(r"rt: (\w+) (?:(proved)|(is kept): .*|(NOT PROVED).*)")
SHOWN = 30  # lines of the log that a failure shows


def crates_below():
    """The lines of crates.txt for the programs and the crates that they stand on, by name."""
    lines = (TOP / "crates.txt").read_text(encoding="utf-8").splitlines()
    rows = {line.partition(":")[0].strip(): line for line in lines if ":" in line.split("#")[0]}
    wanted, left = set(), list(PROGRAMS.values())
    while left:
        name = left.pop()
        if name in rows and name not in wanted:
            wanted.add(name)
            left += rows[name].partition(":")[2].split()
    return {name: line for name, line in rows.items() if name in wanted}


def lay_out(folder, crates):
    """Writes what is to be built: a repository of these crates alone."""
    unread = shutil.ignore_patterns("out", "must-fail")
    for name in crates:
        shutil.copytree(TOP / "crates" / name, folder / "crates" / name, ignore=unread)
    (folder / "crates.txt").write_text("\n".join(crates.values()) + "\n", encoding="utf-8")
    shutil.copyfile(TOP / "HANDLES", folder / "HANDLES")


def take_programs(folder):
    """Copies the programs that were built below this folder into bin/, with what they are of; True
    if both are there."""
    BIN.mkdir(exist_ok=True)
    for name, crate in PROGRAMS.items():
        built = folder / "crates" / crate / "out" / crate
        if not built.is_file():
            return False
        shutil.copy2(built, BIN / f"{name}.new")
        os.utime(BIN / f"{name}.new")
        os.replace(BIN / f"{name}.new", BIN / name)
    said = f"{of_clone() or UNKNOWN}, proved by {toolchain.version()}"
    lines = [line_of(BIN / name, name, said) for name in PROGRAMS]
    (BIN / RECORD).write_text("\n".join(lines) + "\n", encoding="utf-8")
    return True


# A file and no link: the toolchain stops at a link anywhere in a repository.
TOOL = """#!/usr/bin/python3
# tools/{name}, by the name that it has when it is installed
import sys
from pathlib import Path

tool = Path(__file__).resolve().parents[1] / "tools" / "{name}"
sys.path.insert(0, str(tool.parent))
exec(compile(tool.read_text("utf-8"), str(tool), "exec"))
"""


def put_tools():
    for path in sorted((TOP / "tools").glob("*.py")):
        if os.access(path, os.X_OK):
            name = path.stem.replace("_", "-")
            named = BIN / (name if name == "mqr" else f"mqroute-{name}")
            named.unlink(missing_ok=True)
            named.write_text(TOOL.format(name=path.name), encoding="utf-8")
            named.chmod(0o755)


class NotProved(Exception):
    """A crate that failed."""


class LastRun:
    """When each crate was done in the last run on this machine that proved all, in seconds."""

    def __init__(self):
        cache = os.environ.get("XDG_CACHE_HOME") or pathlib.Path.home() / ".cache"
        self.file = pathlib.Path(cache, "mqroute", "build.json")
        self.ends = {}
        with contextlib.suppress(OSError, ValueError):
            self.ends = json.loads(self.file.read_text(encoding="utf-8"))

    def left(self, name):
        """How many seconds were left when this crate was done; 0 where that isn't known."""
        return max(self.ends.values()) - self.ends[name] if name in self.ends else 0

    def keep(self, ends):
        try:
            self.file.parent.mkdir(parents=True, exist_ok=True)
            self.file.write_text(json.dumps(ends, indent=1), encoding="utf-8")
        except OSError as error:
            print(f"build: {self.file}: {error.strerror}: the next run can't say how long is left",
                  file=sys.stderr)


def follow(lines, crates, log):
    """Shows each crate that is done; answers when each was, and how many were kept."""
    last, ends, kept, began = LastRun(), {}, 0, time.monotonic()
    for line in lines:
        log.write(line)
        log.flush()
        found = ENDED.fullmatch(line.strip())
        if found and found[1] in crates:
            name = found[1]
            if found[4]:
                raise NotProved(name)
            ends[name] = round(time.monotonic() - began, 1)
            kept += bool(found[3])
            when = "was proved before" if found[3] else f"after {ends[name] / 60:.1f} min"
            left = last.left(name)
            more = f", about {left / 60:.0f} min left" if left >= 60 and not found[3] else ""
            print(f"{len(ends):2} of {len(crates)}  {name:16} {when}{more}", flush=True)
    if len(ends) == len(crates) and not kept:
        last.keep(ends)


def prove(folder, crates):
    """Runs the toolchain there, in a process group of its own; True if all passed."""
    BIN.mkdir(exist_ok=True)
    with open(LOG, "w", encoding="utf-8", errors="replace") as log:
        process = subprocess.Popen(["rt", "ci"], cwd=folder, stdin=subprocess.DEVNULL,
                                   stdout=subprocess.PIPE, stderr=subprocess.STDOUT, text=True,
                                   errors="replace", start_new_session=True)
        try:
            follow(process.stdout, crates, log)
            return process.wait() == 0
        except BaseException:
            with contextlib.suppress(ProcessLookupError):
                os.killpg(process.pid, signal.SIGTERM)
            process.wait()
            raise


def failed(why):
    log = LOG.read_text(encoding="utf-8").splitlines()
    print("\n".join(log[-SHOWN:]), file=sys.stderr)
    print(f"build: {why}: all of the log is bin/build.log", file=sys.stderr)
    return 1


def build():
    crates, began = crates_below(), time.monotonic()
    if toolchain.version() and not toolchain.ci_keeps():
        print(f"build: made for {toolchain.MADE_FOR}; {toolchain.version()} keeps nothing of this "
              "for the gate or a later run")
    with tempfile.TemporaryDirectory(prefix="mqroute-build-") as name:
        folder = pathlib.Path(name)
        lay_out(folder, crates)
        try:
            if not prove(folder, crates) or not take_programs(folder):
                return failed("the programs can't be built")
        except NotProved as name:
            return failed(f"{name} is not proved")
        except KeyboardInterrupt:
            again = "goes on where it was" if toolchain.ci_keeps() else "begins from nothing"
            print(f"\nbuild: stopped; run again, it {again}", file=sys.stderr)
            return 130
        except OSError as error:
            print(f"build: {error.filename or 'rt'}: {error.strerror}", file=sys.stderr)
            return 1
    put_tools()
    print("bin/mqroute and bin/mqroute-acl are proved and built: "
          f"{(time.monotonic() - began) / 60:.1f} min")
    return 0


def main():
    parser = argparse.ArgumentParser(description=__doc__.partition("\n\n")[0])
    parser.add_argument("--of-gate", action="store_true",
                        help="only put into bin/ what the gate (`rt ci`) has built in this clone")
    if not parser.parse_args().of_gate:
        if shutil.which("rt") is None:
            print("build: rt isn't on the PATH: the Rattle toolchain proves and builds the "
                  "programs. `make run` answers without it, unproved", file=sys.stderr)
            return 2
        return build()
    if not take_programs(TOP):
        print("build: the gate has not built the programs here", file=sys.stderr)
        return 1
    put_tools()
    return 0


if __name__ == "__main__":
    sys.exit(main())
