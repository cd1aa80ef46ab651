#!/usr/bin/env python3
"""Answers a script as mqroute does, by another reading: docs/reference and docs/definitions put
into Python's lists (tools/mqroute_tools/plain).

It has no tree, no index and no queue of turns: each command looks at every row of every list, so it
is slow, and its answers owe nothing to mqroute's code. What tests/rows wants is written by it where
it is too long to be written by hand.

    dev/plain_router.py [--acl-file FILE] [--rules RULES] [--max-retained N] [--max-queued N]
                        [SCRIPT]
    dev/plain_router.py --check      answers each row of tests/rows, each conformance case and each
                                     example, and compares
"""
import io
import pathlib
import sys

TOP = pathlib.Path(__file__).resolve().parent.parent
sys.path.insert(0, str(TOP / "tools"))
from mqroute_tools.plain.__main__ import main, parsed  # noqa: E402
from mqroute_tools.plain.reader import Reader  # noqa: E402


def output(script, acl=None, max_retained=None, max_queued=None, rules="own"):
    """What is written for a script, and the exit status."""
    reader = Reader(acl, max_retained, max_queued, rules)
    text = b"".join(reader.answers(io.BytesIO(script)))
    return text, 1 if reader.has_refused else 0


def run(words, script, folder):
    options = parsed(words)
    acl = None
    if options.acl_file is not None:
        acl = pathlib.Path(folder, options.acl_file).read_bytes().decode()
    if options.script != "-":
        script = pathlib.Path(folder, options.script).read_bytes()
    return output(script, acl, options.max_retained, options.max_queued, options.rules)


def cases(top):
    """A name, the words, the script, the folder, and what is wanted, of each
    row, each conformance case and each example."""
    for path in sorted(top.glob("tests/rows/*.jsonl")):
        args = path.with_suffix(".args")
        words = args.read_text().splitlines() if args.exists() else []
        wanted = path.with_suffix(".out").read_bytes(), int(path.with_suffix(".status").read_text())
        yield path.stem, words, path.read_bytes(), top, wanted
    for path in sorted(top.glob("conformance/*/*.jsonl")):
        out = path.with_suffix(".out").read_bytes()
        status = 1 if b'"refused"' in out else 0
        yield f"{path.parent.name}/{path.stem}", [], path.read_bytes(), top, (out, status)
    for path in sorted(top.glob("examples/*/run")):
        for line in path.read_text().splitlines():
            out, status, *words = line.split()
            wanted = (path.parent / out).read_bytes(), int(status)
            yield f"{path.parent.name} {out}", words, b"", path.parent, wanted


def check():
    found = [(name, run(words, script, folder) == wanted)
             for name, words, script, folder, wanted in cases(TOP)]
    wrong = [name for name, is_right in found if not is_right]
    for name in wrong:
        print(f"plain_router: {name} wants something else")
    print(f"plain_router: {len(found) - len(wrong)} as wanted, {len(wrong)} otherwise")
    return 1 if wrong or not found else 0


if __name__ == "__main__":
    sys.exit(check() if sys.argv[1:] == ["--check"] else main())
