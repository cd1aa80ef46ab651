"""Of which build the programs are, by the checksums of their files.

A file PROGRAMS has a line for each: its SHA-256, its name, and of which commit it is, whether it
was proved and by which kit. It stands beside the programs of a clone, and beside the modules of a
package or an installation. `python3 -m mqroute_tools.common.built FILE..` writes those lines for
these files, with what is known of the programs of the clone that have their names.
"""
import sys
from collections.abc import Iterator
from contextlib import suppress
from hashlib import sha256
from pathlib import Path

from .programs import BUILT, existing_program
from .version import MODULES

NAME = "PROGRAMS"  # of the file
PROGRAMS = (("MQROUTE", "mqroute"), ("MQROUTE_ACL_PROGRAM", "mqroute-acl"))


def checksum(path: str | Path) -> str:
    return sha256(Path(path).read_bytes()).hexdigest()


def line_of(path: str | Path, name: str, said: str) -> str:
    return f"{checksum(path)}  {name}  {said}"


def said_of(digest: str, name: str) -> str:
    """What the file says of a program with this checksum; empty where it doesn't know it."""
    for folder in (MODULES, BUILT):
        with suppress(OSError, UnicodeDecodeError):
            for line in (folder / NAME).read_text("utf-8").split("\n"):
                known, _, rest = line.partition("  ")
                if known == digest and rest.startswith(f"{name}  "):
                    return rest.removeprefix(f"{name}  ")
    return ""


def shown(variable: str, name: str) -> str:
    """The line of --version on a program, the one that the tools run."""
    path = existing_program(variable, name)
    if path is None:
        return f"{name}: there is none"
    try:
        digest = checksum(path)
    except OSError as fault:
        return f"{name}: {path}: {fault.strerror}"
    said = said_of(digest, name)
    return f"{name} {said}" if said else (
        f"{name}: of {path} it isn't known of which commit it is (SHA-256 {digest[:16]})")


def versions() -> Iterator[str]:
    for variable, name in PROGRAMS:
        yield shown(variable, name)


def main(paths: list[str]) -> None:
    for path in paths:
        name = Path(path).name
        with suppress(OSError):
            said = said_of(checksum(BUILT / name), name)
            if said:
                print(line_of(path, name, said))


if __name__ == "__main__":
    main(sys.argv[1:])
