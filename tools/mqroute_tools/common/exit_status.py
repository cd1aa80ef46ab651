"""How the tools end: their status, and one line of text where they can't do their work."""
import errno
import os
import select
import signal
import sys
from collections.abc import Callable

from . import interrupt
from .messages import in_words, say

FAILED = 2  # 0 and 1 are each tool's own
BROKEN = 3  # a fault of the machine, which no other command line would mend
OF_MACHINE = {errno.ENOSPC, errno.EDQUOT, errno.EFBIG, errno.EIO, errno.ENOMEM, errno.EMFILE,
              errno.ENFILE}


class Fault(Exception):
    """What is said to the user before exit status 2."""


class MachineFault(Fault):
    """The same before exit status 3."""


class UsageFault(Exception):
    """The same of arguments that don't go together, behind the usage."""


def discard(stream: int) -> None:
    """What is still to be written to standard output or standard error goes nowhere: Python would
    try again at its end."""
    nowhere = os.open(os.devnull, os.O_WRONLY)
    os.dup2(nowhere, stream)
    if nowhere != stream:
        os.close(nowhere)


def refuse_closed_output() -> None:
    if sys.stdout is None:
        raise Fault("standard output is closed")


def failed(fault: Exception) -> int:
    discard(1)
    say(in_words(fault))
    return BROKEN if is_of_machine(fault) else FAILED


def is_of_machine(fault: BaseException | None) -> bool:
    """Whether it is one of the machine, or was raised from one."""
    return fault is not None and (
        isinstance(fault, (MachineFault, MemoryError))
        or (isinstance(fault, OSError) and fault.errno in OF_MACHINE)
        or is_of_machine(fault.__cause__))


def reader_has_gone() -> bool:
    """Whether nobody reads standard output any more, as behind `head`."""
    asked = select.poll()
    asked.register(1, select.POLLOUT)
    return any(event & select.POLLERR for _, event in asked.poll(0))


def done(work: Callable[[], int]) -> int:
    """Its status, or that of argparse behind the help or what is wrong with the arguments."""
    try:
        return work()
    except SystemExit as ended:
        return ended.code if isinstance(ended.code, int) else FAILED


def run(work: Callable[[], int]) -> int:
    """The status that `work` gives; where it raises anything, 2 or 3 after one line that says what.
    Where the reader of standard output has gone, as `head` goes, that of a program that SIGPIPE
    ends, and no line."""
    interrupt.heed()
    try:
        refuse_closed_output()
        status = done(work)
        sys.stdout.flush()
    except interrupt.Stopped as stopped:
        discard(1)
        say("stopped")
        return stopped.status
    except Exception as fault:
        if isinstance(fault, BrokenPipeError) and reader_has_gone():
            discard(1)
            return interrupt.status_of(signal.SIGPIPE)
        return failed(fault)
    finally:
        interrupt.leave()
        end_of_notes()
    return status


def end_of_notes() -> None:
    """What standard error couldn't take, as on a full disk, is lost; the status stays."""
    try:
        if sys.stderr is not None:
            sys.stderr.flush()
    except (OSError, ValueError):
        discard(2)
