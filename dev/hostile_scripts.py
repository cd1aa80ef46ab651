#!/usr/bin/env python3
"""Writes crates/mq_tests/src/tests/scripts.rt: two worked rows of tests/rows, since the gate gives
a test no files.

Their lines of more than 1,000 bytes are left out, and the others renumbered: the scripts are cut at
each byte. Run from the repository's top, whenever one of the rows changes: dev/hostile_scripts.py;
with the argument --check it writes nothing and fails where the file is out of date.
"""
import pathlib
import re
import sys

ROWS = pathlib.Path("tests/rows")
MADE = pathlib.Path("crates/mq_tests/src/tests/scripts.rt")
NAMES = ("first-look", "refusals")
LONGEST_LINE = 1_000
NUMBER = re.compile(r'"line":(\d+)')
HEAD = """//! Two of the worked rows. Made by dev/hostile_scripts.py from tests/rows.

/// A script and what is written for it.
pub(crate) struct Row {
    pub(crate) script: &'static str,
    pub(crate) output: &'static str,
}
"""


def without_long_lines(script, out):
    lines = script.splitlines(keepends=True)
    kept = [number for number, line in enumerate(lines, 1) if len(line) <= LONGEST_LINE]
    place = {number: place for place, number in enumerate(kept, 1)}
    answers = [line for line in out.splitlines(keepends=True) if line_answered(line) in place]
    renumbered = [NUMBER.sub(f'"line":{place[line_answered(line)]}', line) for line in answers]
    return "".join(lines[number - 1] for number in kept), "".join(renumbered)


def line_answered(line):
    return int(NUMBER.search(line)[1])


def row(name):
    path = ROWS / f"{name}.jsonl"
    script, out = without_long_lines(path.read_text(), path.with_suffix(".out").read_text())
    return (f"\npub(crate) static {name.upper().replace('-', '_')}: Row = Row {{\n"
            f"    script: r##\"{script}\"##,\n    output: r##\"{out}\"##,\n}};\n")


text = HEAD + "".join(map(row, NAMES))
if "--check" in sys.argv:
    sys.exit(0 if MADE.read_text() == text
             else f"{MADE} is not what dev/hostile_scripts.py makes of {ROWS}")
MADE.write_text(text)
