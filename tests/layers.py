#!/usr/bin/env python3
"""Reads who names whom, among crates and among the modules of each, and fails on a name that looks
up.

A crate stands on those above it in crates.txt, and on no chain of more than LONGEST: both programs
are built no sooner than the crates of the longest chain, one after the other. Within a crate no
modules name each other in a circle; and where ORDER has the crate, its lowest module or folder
first, none names one that comes later.
"""
import pathlib
import re
import sys

from faults import status_of

TOP = pathlib.Path(__file__).resolve().parent.parent

# How many crates stand on each other at most, the program included. Three of them are the search
# that all questions come down to: as one it would have half as many functions again as a crate may.
LONGEST = 10

# The folders and files of a crate that has layers, from the lowest up.
ORDER = {
    "mq_router": ["texts", "replies", "delivery", "router"],
    "mq_run": ["devices", "outcome", "write", "answer", "progress", "runner"],
}


def towers():
    """Each crate with those that it stands on, as crates.txt has them."""
    lines = (TOP / "crates.txt").read_text(encoding="utf-8").splitlines()
    named = (line.split("#")[0].split(":") for line in lines if ":" in line.split("#")[0])
    return [(name.split()[0], needs.split()) for name, needs in named]


def crate_faults():
    crates = towers()
    ours, seen = {name for name, _ in crates}, set()
    for name, needs in crates:
        for need in needs:
            if need in ours and need not in seen:
                yield f"crates.txt: {name} stands on {need}, which comes after it"
        seen.add(name)
    chain = longest_chain()
    if len(chain) > LONGEST:
        yield f"crates.txt: a chain of {len(chain)} crates: {' '.join(chain)}"


def longest_chain():
    """Of the chains of crates that stand on each other a longest one, from below. That of
    tests alone doesn't count."""
    chains = {}
    for name, needs in towers():
        below = max((chains.get(need, []) for need in needs), key=len, default=[])
        chains[name] = [*below, name]
    return max((chains[name] for name in ("mqroute", "mqroute_acl")), key=len)


def modules(crate):
    """The modules of a crate by path, as sessions::edits, each with its text;
    its root is the empty path."""
    source = TOP / "crates" / crate / "src"
    found = {}
    for path in sorted(source.rglob("*.rt")):
        parts = path.relative_to(source).with_suffix("").parts
        found["" if parts in (("lib",), ("main",)) else "::".join(parts)] = path.read_text(
            encoding="utf-8")
    return found


def uses(text):
    """The paths that a file's imports name, those in braces one by one; ghost
    imports are of specs."""
    for it in re.finditer(r"^(?:pub(?:\([^)]*\))? )?use ([^;]*);", text, re.M):
        front, brace, rest = it[1].partition("{")
        for part in rest.rstrip("} \n").split(",") if brace else [""]:
            yield (front + part.split(" as ")[0].strip()).replace("\n", "").strip()


def names(path, used, all_modules):
    """The module that an import of a module names, or none of this crate's."""
    parts = used.split("::")
    if parts[0] == "crate":
        parts = parts[1:]
    elif parts[0] == "super":
        parts = path.split("::")[:-1] + parts[1:]
    else:
        parts = (path.split("::") if path else []) + parts
    for length in range(len(parts), 0, -1):
        if "::".join(parts[:length]) in all_modules:
            return "::".join(parts[:length])
    return None


def edges(crate):
    all_modules = modules(crate)
    for path, text in all_modules.items():
        for used in uses(text):
            other = names(path, used, all_modules)
            if other is not None and other != path and path:
                yield path, other


def circle(graph):
    """Modules that name each other in a circle, if some do."""
    state, way = {}, []

    def visit(node):
        state[node] = "open"
        way.append(node)
        for other in sorted(graph.get(node, ())):
            if state.get(other) == "open":
                return way[way.index(other):] + [other]
            if other not in state and (found := visit(other)):
                return found
        state[node] = "done"
        way.pop()
        return None

    for node in sorted(graph):
        if node not in state and (found := visit(node)):
            return found
    return None


def module_faults(crate):
    graph = {}
    for path, other in edges(crate):
        graph.setdefault(path, set()).add(other)
    if found := circle(graph):
        yield f"{crate}: a circle of modules: {' -> '.join(found)}"
    order = ORDER.get(crate)
    if not order:
        return
    for folder in sorted({path.split("::")[0] for path in modules(crate) if path} - set(order)):
        yield f"{crate}: ORDER doesn't say where {folder} stands"
    for path, other in sorted(edges(crate)):
        low, high = path.split("::")[0], other.split("::")[0]
        if low in order and high in order and order.index(high) > order.index(low):
            yield f"{crate}: {path} names {other}, which stands above it"


def main():
    faults = list(crate_faults())
    count = 0
    for crate, _ in towers():
        count += sum(1 for _ in edges(crate))
        faults += module_faults(crate)
    sums = (f"{len(towers())} crates, {count} imports among modules, {len(faults)} upward; "
            f"the longest chain: {' '.join(longest_chain())}")
    return status_of("layers", faults, sums) or int(count == 0)


if __name__ == "__main__":
    sys.exit(main())
