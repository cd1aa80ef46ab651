#!/usr/bin/env python3
"""Runs the blocks of README, tools/README, docs/guide, docs/reference and the manual pages, each
from the top of a copy, and compares what they print.

A block of `sh` is pasted as it is, and the block of `text` behind it is what it prints. A block of
lines that begin with `$ ` is a session: a line that begins with `> ` goes on with the command, and
what follows is what it prints. A block of objects with `do` is a script: the program accepts each
of its lines. Sessions that call a program which isn't there, such as jq, are left out,
and it says so.
With `--installed ROOT` pages, files and programs are those of a package that is unpacked in ROOT.
With `--write` it writes what each session prints into its page, for somebody to read: a page that
shows what is wrong is no better for being as the program prints it.
"""
import argparse
import os
import pathlib
import re
import shutil
import subprocess
import sys
import tempfile

from faults import is_absent, status_of

TOP = pathlib.Path(__file__).resolve().parent.parent
PAGES = ("README.md", "docs/guide/*.md", "docs/reference/*.md")
MORE_PAGES = ("tools/README.md", "docs/*.[1-8]")  # which a package hasn't
COPIED = ("examples", "brokers", "docs", "conformance")
# What a session may call, and a machine may lack.
OPTIONAL = ("jq", "pv")
BLOCK = re.compile(r"(?<=^```\n)(.*?)(?=^```$)", re.S | re.M)
PASTED = re.compile(r"(?<=^```sh\n)(.*?)(^```\n\n```text\n)(.*?)(?=^```$)", re.S | re.M)
MANUAL_BLOCK = re.compile(r"(?<=^\.nf\n)(.*?)(?=^\.fi$)", re.S | re.M)
STEP = re.compile(r"^\$ (.*\n(?:> .*\n)*)((?:(?!\$ ).*\n)*)", re.M)


class Page:
    """A page of Markdown, or of a manual."""

    def __init__(self, top, path):
        self.path, self.name = path, path.relative_to(top)
        self.is_manual = path.suffix != ".md"
        self.form = MANUAL_BLOCK if self.is_manual else BLOCK
        self.text = path.read_text(encoding="utf-8")

    def shown(self, block):
        """A block as it is read."""
        if not self.is_manual:
            return block
        return re.sub(r"^\\&", "", block, flags=re.M).replace("\\-", "-").replace("\\e", "\\")

    def written(self, block):
        """A block as it stands in the page."""
        if not self.is_manual:
            return block
        escaped = block.replace("\\", "\\e").replace("-", "\\-")
        return re.sub(r"^(?=[.'])", r"\\&", escaped, flags=re.M)

    def blocks(self):
        return [self.shown(block) for block in self.form.findall(self.text)]

    def pasted(self):
        """What is pasted, with what it prints."""
        return [(found[1], found[3]) for found in PASTED.finditer(self.text)]

    def replace(self, change, print_pasted):
        """Writes each block as `change` gives it, and behind what is pasted what it prints."""
        text = PASTED.sub(lambda found: found[1] + found[2] + print_pasted(found[1]), self.text)
        text = self.form.sub(lambda found: self.written(change(self.shown(found[0]))), text)
        if text != self.text:
            self.path.write_text(text, encoding="utf-8")


def printed_by(command, folder, path):
    """What one command prints behind those before it, on standard error too."""
    around = os.environ | {"PATH": path}
    return subprocess.run(
        ["bash", "-c", command], cwd=folder, env=around, text=True, stdout=subprocess.PIPE,
        stderr=subprocess.STDOUT).stdout


def steps(block, folder, path):
    """Each command, with what stands behind it and what it prints. What changes the folder comes
    before each of those that follow."""
    before = ""
    for command, wanted in STEP.findall(block):
        words = command.replace("\n> ", "\n")
        yield command, wanted, printed_by(before + words, folder, path)
        if command.startswith("cd "):
            before += words


def session_faults(block, folder, path):
    """The commands that print something else."""
    return [f"{command}  prints {printed!r}" for command, wanted, printed in steps(
        block, folder, path) if printed != wanted]


def pasted_faults(command, wanted, folder, path):
    printed = printed_by(command, folder, path)
    return [] if printed == wanted else [f"{command}  prints {printed!r}"]


def script_faults(block, programs):
    answered = subprocess.run([programs / "mqroute"], input=block, text=True, capture_output=True)
    if answered.returncode == 0:
        return []
    return [f"a script of {len(block.splitlines())} lines has status {answered.returncode}:\n"
            f"{answered.stdout}"]


def lacked(block):
    """The programs that a session calls and that aren't there."""
    return [name for name in OPTIONAL if re.search(rf"\b{name} -", block)
            and shutil.which(name) is None]


def is_session(block):
    if not block.startswith("$ "):
        return False
    for name in lacked(block):
        print(f"readme: there is no {name}: its session was not run")
    return not lacked(block)


def block_faults(pages, folder, programs, path):
    """What is wrong with each block that is run."""
    for page in pages:
        for command, wanted in page.pasted():
            faults = pasted_faults(command, wanted, folder, path)
            yield "session", [f"{page.name}: {fault}" for fault in faults]
        for block in page.blocks():
            if is_session(block):
                faults = session_faults(block, folder, path)
            elif re.match(r'\{"do":', block):
                faults = script_faults(block, programs)
            else:
                continue
            kind = "session" if block.startswith("$ ") else "script"
            yield kind, [f"{page.name}: {fault}" for fault in faults]


def write(pages, folder, path):
    for page in pages:
        page.replace(lambda block: "".join(
            f"$ {command}{printed}" for command, _, printed in steps(block, folder, path))
            if is_session(block) else block, lambda command: printed_by(command, folder, path))


def pages_below(top, forms):
    return [Page(top, path) for form in forms for path in sorted(top.glob(form))]


def main() -> int:
    parser = argparse.ArgumentParser(description=__doc__.partition("\n\n")[0])
    parser.add_argument(
        "--installed", metavar="ROOT", help="a folder in which a package is unpacked")
    parser.add_argument(
        "--write", action="store_true", help="write what is printed into the pages")
    options = parser.parse_args()
    root = options.installed
    top = pathlib.Path(root).resolve() / "usr/share/doc/mqroute" if root else TOP
    programs = pathlib.Path(root).resolve() / "usr/bin" if root else TOP / "bin"
    if any(is_absent("readme", programs / name) for name in ("mqroute", "mqroute-acl")):
        return 1
    # Beside an installed program stands the system alone: no toolchain.
    path = f"{programs}:/usr/bin:/bin" if root else f"{programs}:{os.environ['PATH']}"
    pages = pages_below(top, PAGES if root else PAGES + MORE_PAGES)
    with tempfile.TemporaryDirectory() as folder:
        for name in COPIED:
            if (top / name).is_dir():
                shutil.copytree(top / name, pathlib.Path(folder, name))
        for copied in pathlib.Path(folder).rglob("*"):  # whatever the umask was
            copied.chmod(copied.stat().st_mode | 0o444)
        if options.write:
            return write(pages, folder, path) or 0
        found = list(block_faults(pages, folder, programs, path))
    faults = [fault for _, some in found for fault in some]
    count = [sum(it == kind for it, _ in found) for kind in ("session", "script")]
    sums = f"{count[0]} sessions and {count[1]} scripts, {len(faults)} faults"
    return status_of("readme", faults, sums) or int(not count[0])


sys.exit(main())
