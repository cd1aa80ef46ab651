"""A broker that is begun by a command of the user's, and ended."""
import contextlib
import os
import signal
import socket
import subprocess
import tempfile
import time
from collections.abc import Iterator

from ..common import interrupt
from ..common.exit_status import Fault
from ..common.texts import lines
from .options import BrokerOptions

LISTENS = 30.0  # seconds until it has to
ENDS = 5.0  # seconds that it has to end in
STEP = 0.05
PROCESS = "MQROUTE_BROKER"  # the variable that has its process, for the command of --on-acl
SHOWN = 5  # lines of what it said


def listens(options: BrokerOptions) -> bool:
    with socket.socket() as probe:
        probe.settimeout(1)
        return probe.connect_ex((options.host, options.port)) == 0


def wait_for(options: BrokerOptions, broker: "subprocess.Popen[bytes]") -> str:
    """Until it listens; else why it doesn't."""
    end = time.monotonic() + LISTENS
    while not listens(options):
        if broker.poll() is not None:
            return f"it ended with status {broker.returncode}"
        if time.monotonic() > end:
            return (f"nothing listens at {options.host} port {options.port} after "
                    f"{LISTENS:g} seconds")
        time.sleep(STEP)
    return ""


def end(broker: "subprocess.Popen[bytes]") -> None:
    """The command with all that it began."""
    for how in (signal.SIGTERM, signal.SIGKILL):
        with contextlib.suppress(ProcessLookupError, subprocess.TimeoutExpired):
            os.killpg(broker.pid, how)
            broker.wait(ENDS)
            return


def wait_for_silence(options: BrokerOptions) -> None:
    """The shell may be gone before what it began."""
    end = time.monotonic() + LISTENS
    while listens(options) and time.monotonic() < end:
        time.sleep(STEP)


@contextlib.contextmanager
def started(command: str | None, options: BrokerOptions) -> Iterator[None]:
    """While it runs. Without a command it is one that runs already."""
    if command is None:
        yield
        return
    if listens(options):
        raise Fault(f"something listens at {options.host} port {options.port} already, where "
                    "--start is to begin a broker")
    with tempfile.TemporaryFile() as said:
        broker = None
        try:
            with interrupt.held():
                broker = subprocess.Popen(command, shell=True, start_new_session=True,
                                          stdin=subprocess.DEVNULL, stdout=said, stderr=said)
            os.environ[PROCESS] = str(broker.pid)
            why = wait_for(options, broker)
            if why:
                said.seek(0)
                last = lines(said.read().decode("utf-8", "replace"))[-SHOWN:]
                raise Fault("; ".join([f"the command of --start: {why}", *last]))
            yield
        finally:
            if broker is not None:
                with interrupt.held():
                    end(broker)
                wait_for_silence(options)
