"""Where mqroute's programs are, and what they write."""
import os
import shutil
import subprocess
from collections.abc import Callable, Container
from pathlib import Path

from .exit_status import BROKEN, Fault, MachineFault
from .texts import lines

HERE = Path(__file__).resolve()
# in a clone, and where it is installed: beside lib/
BUILT, INSTALLED = HERE.parents[3] / "bin", HERE.parents[4] / "bin"


def existing_program(variable: str, name: str) -> str | None:
    """The program that an environment variable names, or the one that stands in the same clone or
    installation, or the one of this name on the PATH; None where there is none of these."""
    named = os.environ.get(variable)
    if named:
        return named
    beside = (str(folder / name) for folder in (BUILT, INSTALLED))
    return next((path for path in beside if os.access(path, os.X_OK)), shutil.which(name))


def find_program(variable: str, name: str) -> str:
    """The same; the name alone where there is none."""
    return existing_program(variable, name) or name


def cannot_run(program: str, fault: OSError) -> str:
    """Why a program can't be run, and how to have it where it was looked for on the PATH."""
    said = f"cannot run {program}: {fault.strerror}"
    if isinstance(fault, FileNotFoundError) and "/" not in program:
        said += ": `make` builds it, and a package has it (README.md)"
    return said


def on_one_line(said: bytes) -> str:
    """What a program wrote to standard error."""
    return "; ".join(lines(said.decode("utf-8", "replace").strip()))


def no_answer(program: str, status: int, said: str) -> Fault:
    """Of a program that ended with another status than that of an answer."""
    kind = MachineFault if status == BROKEN else Fault
    return kind(said or f"{program} ended with status {status}")


def output_of(words: list[str], named: Callable[[str], str] = str,
              statuses: Container[int] = (0, 1), out: int = subprocess.PIPE,
              given: bytes | None = None) -> subprocess.CompletedProcess[bytes]:
    """Runs a program to its end, with what it is given on standard input. Raises Fault where it
    can't be run or ends with another status; `named` puts the names of files into what it says
    then."""
    try:
        done = subprocess.run(words, stdout=out, stderr=subprocess.PIPE, input=given)
    except OSError as fault:
        raise Fault(cannot_run(words[0], fault)) from fault
    if done.returncode not in statuses:
        raise no_answer(words[0], done.returncode, named(on_one_line(done.stderr)))
    return done
