"""Counts what the lines of a script cost the built program, by a preloaded library (costs.c)."""
import json
import os
import pathlib
import shutil
import subprocess
import tempfile
from typing import NamedTuple

HERE = pathlib.Path(__file__).resolve().parent

# glibc clears and copies what is long by one instruction that raises the count by one for each
# byte. With these it does so by vectors, as what is short.
TUNABLES = "glibc.cpu.x86_rep_stosb_threshold=100000000:glibc.cpu.x86_rep_movsb_threshold=100000000"

# A run of seconds that takes so many has some walk at each line. It bounds nothing that is counted.
TOO_LONG = 600


class Cost(NamedTuple):
    """What a line costs: see costs.c. `held` is all that is held behind it."""
    instructions: int
    blocks: int
    bytes: int
    room: int
    held: int
    long_blocks: int


class Run(NamedTuple):
    before: Cost
    costs: list[Cost]
    answers: list[list[dict]]


class Failed(Exception):
    """A run that says nothing of costs, and why."""


def compiler():
    """The toolchain's clang, as for tests/refused.c; any other where it isn't."""
    rt = shutil.which("rt")
    if rt:
        kit = pathlib.Path(rt).resolve().parent.parent
        return [kit / "toolchain/bin/clang", "-nostdlib", "-fuse-ld=lld"]
    return ["cc"]


class Counter:
    """Runs of a program with the library."""

    def __init__(self, program, folder):
        self.program, self.folder = program, folder
        self.library = pathlib.Path(folder, "costs.so")
        subprocess.run([*compiler(), "-O2", "-shared", "-fPIC", "-o", self.library,
                        HERE / "costs.c"], check=True)

    def run(self, before, lines=(), rows=None, options=(), most=(), long=0):
        """The cost of what stands before, and of each of these lines with its answers.

        `most` has for each line how many of its instructions are counted. Blocks of `long` bytes
        are counted by themselves. `rows` is the text of an access list."""
        numbers = {"MQ_FROM": sum(map(len, before)), "MQ_MOST": " ".join(map(str, most)),
                   "MQ_LONG": long}
        with tempfile.TemporaryDirectory(dir=self.folder) as name:
            place = pathlib.Path(name)
            (place / "script").write_bytes(b"".join([*before, *lines]))
            if rows is not None:
                (place / "rows").write_text(rows)
                options = ["--acl-file", place / "rows", *options]
            self.start(place, options, numbers)
            costs = read_costs(place / "costs")
            if len(costs) != 1 + len(lines):
                raise Failed(f"{len(costs) - 1} of {len(lines)} lines were counted")
            return Run(costs[0], costs[1:], read_answers(place / "out", len(before), len(lines)))

    def start(self, place, options, numbers):
        counting = {"MQ_COSTS": place / "costs", "LD_PRELOAD": self.library, **numbers,
                    "GLIBC_TUNABLES": TUNABLES}
        environment = {**os.environ, **{name: str(value) for name, value in counting.items()}}
        with open(place / "script", "rb") as script, open(place / "out", "wb") as out:
            try:
                done = subprocess.run([self.program, "--unbuffered", *options], stdin=script,
                                      stdout=out, stderr=subprocess.PIPE, env=environment,
                                      timeout=TOO_LONG)
            except subprocess.TimeoutExpired as late:
                raise Failed(f"no end in {TOO_LONG} seconds") from late
        if done.returncode not in (0, 1):
            raise Failed(f"status {done.returncode}: {done.stderr.decode(errors='replace')}")


def read_costs(file):
    return [Cost(*map(int, line.split())) for line in file.read_text().splitlines()]


def read_answers(file, before, count):
    """What was answered to each of so many lines behind the first ones."""
    answers: list[list[dict]] = [[] for _ in range(count)]
    with open(file, "rb") as out:
        for text in out:
            answer = json.loads(text)
            if answer["line"] > before:
                answers[answer["line"] - before - 1].append(answer)
    return answers
