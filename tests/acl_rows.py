#!/usr/bin/env python3
"""Runs the commands of tests/acl/*.rows in a copy of that folder, and compares what they print,
byte for byte, and their statuses. What each must print was worked out from the definitions
(docs/definitions/access-lists.md).
"""
import os
import pathlib
import re
import shutil
import subprocess
import sys
import tempfile

from faults import is_absent, status_of

TOP = pathlib.Path(__file__).resolve().parent.parent
PROGRAM = TOP / "bin/mqroute-acl"
ROW = re.compile(r"^\$ (.*)\n((?:(?!\$ |status \d).*\n)*)status (\d+)$", re.M)


def faults_of(path, folder):
    around = os.environ | {"PATH": f"{PROGRAM.parent}:{os.environ['PATH']}"}
    for command, wanted, status in ROW.findall(path.read_text(encoding="utf-8")):
        done = subprocess.run(
            ["bash", "-c", command], cwd=folder, env=around, timeout=60,
            stdin=subprocess.DEVNULL, stdout=subprocess.PIPE, stderr=subprocess.STDOUT)
        printed = done.stdout.decode("utf-8", errors="replace")
        right = (printed, done.returncode) == (wanted, int(status))
        yield None if right else f"{path.name}: {command}: status {done.returncode}\n{printed}"


def main():
    if is_absent("acl_rows", PROGRAM):
        return 1
    with tempfile.TemporaryDirectory() as name:
        folder = pathlib.Path(name, "acl")
        shutil.copytree(TOP / "tests/acl", folder)
        found = [it for path in sorted(folder.glob("*.rows")) for it in faults_of(path, folder)]
    faults = [it for it in found if it]
    sums = f"{len(found)} rows, {len(faults)} faults"
    return status_of("acl_rows", faults, sums) or int(not found)


sys.exit(main())
