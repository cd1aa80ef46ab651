"""What several tests share: where the tools are, which who imports them has to know first; the
program; and the worked scripts of tests/rows and examples with its answers."""
import json
import os
import subprocess
import sys
import unittest
from collections.abc import Iterator
from pathlib import Path

HERE = Path(__file__).parent.parent
TOP = HERE.parent
GUIDE = TOP / "docs/guide/oracle.md"  # with files for pytest
sys.path.insert(0, str(HERE))
PROGRAM = Path(os.environ.get("MQROUTE", TOP / "bin/mqroute"))
wants_program = unittest.skipUnless(PROGRAM.exists(), f"there is no {PROGRAM}")
UNBUFFERED = PROGRAM.exists() and "--unbuffered" in subprocess.run(
    [PROGRAM, "--help"], capture_output=True, text=True).stdout
wants_unbuffered = unittest.skipUnless(UNBUFFERED, "the program has no --unbuffered")
LINE_FAULTS = (1, 2, 3, 4)  # codes of invalid lines
TEXT_FAULTS = (5, 6, 8, 9, 10)  # and of those with a text that is none


def scripts() -> Iterator[tuple[Path, bytes]]:
    for script in sorted([*TOP.glob("tests/rows/*.jsonl"), *TOP.glob("examples/*/script.jsonl")]):
        yield script, script.read_bytes()


def answers(script: bytes) -> list[dict]:
    done = subprocess.run([PROGRAM], input=script, capture_output=True)
    if done.returncode > 1:
        raise AssertionError(done.stderr.decode())
    return [json.loads(line) for line in done.stdout.decode("utf-8").splitlines()]


def invalid_lines(found: list[dict], codes: tuple[int, ...] = LINE_FAULTS) -> set[int]:
    """The lines that the program refuses as no commands, or with these codes."""
    return {answer["line"] for answer in found if answer.get("code") in codes}
