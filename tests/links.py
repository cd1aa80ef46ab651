#!/usr/bin/env python3
"""Follows the links of the pages that lead to files and headings of this repository.

With `--installed ROOT` the pages are those of a package that is unpacked in ROOT. Of their links
those are followed that lead to docs or examples: what else they name, a clone alone has.
"""
import argparse
import pathlib
import re
import subprocess
import sys

from faults import status_of

TOP = pathlib.Path(__file__).resolve().parent.parent
LINK = re.compile(r"\]\(([^)\s]+)\)")
HEADING = re.compile(r"^#+ (.*)$", re.M)
NAMED = re.compile(r'<a id="([^"]+)"></a>')


def pages():
    named = subprocess.run(["git", "ls-files", "*.md"], cwd=TOP, capture_output=True, text=True,
                           check=True)
    return [TOP / name for name in named.stdout.splitlines()]


def anchors(page):
    """The headings as links name them: in small letters, without marks, a - for each blank. And
    what is named for links."""
    text = re.sub(r"^```.*?^```$", "", page.read_text(encoding="utf-8"), flags=re.S | re.M)
    return {re.sub(r"[^\w\- ]", "", heading.lower()).replace(" ", "-")
            for heading in HEADING.findall(text)} | set(NAMED.findall(text))


def target_of(page, link):
    name = link.partition("#")[0]
    return (page.parent / name).resolve() if name else page


def fault_of(page, link):
    """What is wrong with a link, if anything is."""
    anchor, target = link.partition("#")[2], target_of(page, link)
    if not target.exists():
        return "leads to no file"
    if anchor and target.suffix == ".md" and anchor not in anchors(target):
        return "leads to no heading"
    return None


def is_packed(top, target):
    """Whether a package has the folder that this is in."""
    return any(target.is_relative_to(top / name) for name in ("docs", "examples"))


def main():
    parser = argparse.ArgumentParser(description=__doc__.partition("\n\n")[0])
    parser.add_argument(
        "--installed", metavar="ROOT", help="a folder in which a package is unpacked")
    root = parser.parse_args().installed
    top = pathlib.Path(root).resolve() / "usr/share/doc/mqroute" if root else TOP
    found = [(page, link) for page in (sorted(top.rglob("*.md")) if root else pages())
             for link in LINK.findall(page.read_text(encoding="utf-8")) if "://" not in link
             if not root or is_packed(top, target_of(page, link))]
    faults = [f"{page.relative_to(top)}: {link} {fault}" for page, link in found
              if (fault := fault_of(page, link))]
    return status_of("links", faults, f"{len(found)} links, {len(faults)} faults") or int(not found)


if __name__ == "__main__":
    sys.exit(main())
