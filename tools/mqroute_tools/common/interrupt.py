"""What Ctrl-C does, and SIGTERM, and SIGHUP of a terminal that is closed: one line, nothing left
behind, and the status that a shell has for it. A tool asks for it before it loads the rest."""
import os
import signal
import sys
import time
from collections.abc import Callable, Iterator
from contextlib import contextmanager, suppress

SIGNALS = tuple(getattr(signal, name) for name in ("SIGINT", "SIGTERM", "SIGHUP")
                if hasattr(signal, name))


PATIENCE = 5.0  # seconds to clean up in
PAUSE = 0.01  # seconds until what was lost comes again
came: list[int] = []  # the signal that was heeded
is_lost = False  # whether it was raised in vain
in_hook = False  # whether what is raised now would be too
held_by = 0  # how many blocks hold it back


class Stopped(KeyboardInterrupt):
    """What a signal raises, with the status of a program that it ends."""

    def __init__(self, number: int) -> None:
        super().__init__()
        self.status = status_of(number)


def status_of(number: int) -> int:
    """As a shell has it for a program that the signal ends: 130 after Ctrl-C."""
    return 128 + number


def stop(number: int, *_: object) -> None:
    """Ends the program at once."""
    name = os.path.splitext(os.path.basename(sys.argv[0]))[0]
    with suppress(OSError):
        if sys.stderr is not None:
            os.write(2, f"{name}: stopped\n".encode("utf-8", "replace"))
    os._exit(status_of(number))


def raise_once(number: int, *_: object) -> None:
    """Lets a tool sum up and clean up first. Ctrl-C again ends it at once. The others may come
    together, as of a terminal and of its shell, and end it at once only when it has had time."""
    end = time.monotonic() + PATIENCE

    def again(number: int, *_: object) -> None:
        global is_lost
        if is_lost and not held_by and not in_hook:
            is_lost = False
            raise Stopped(number)
        if not is_lost and (number == signal.SIGINT or time.monotonic() > end):
            stop(number)
    came.append(number)
    handle(again)
    if not held_by:
        raise Stopped(number)


def send_again(unraised: "sys.UnraisableHookArgs") -> None:
    """What a signal raises in a finalizer ends there, and Python only shows it. So the signal is
    sent until it is raised elsewhere; what is raised in here would be lost too."""
    global in_hook, is_lost
    if not isinstance(unraised.exc_value, Stopped):
        sys.__unraisablehook__(unraised)
        return
    in_hook = is_lost = True
    import threading  # here, since nearly every run does without it
    threading.Thread(target=send_lost, daemon=True).start()
    in_hook = False


def send_lost() -> None:
    while is_lost:
        os.kill(os.getpid(), came[-1])
        time.sleep(PAUSE)


def heed() -> None:
    """From here on a signal raises Stopped."""
    sys.unraisablehook = send_again
    handle(raise_once)


@contextmanager
def held() -> Iterator[None]:
    """What is begun here is known to whoever ends it, before a signal raises anything."""
    global held_by
    held_by, known = held_by + 1, len(came)
    try:
        yield
    finally:
        held_by -= 1
        if came[known:] and not held_by:
            raise Stopped(came[-1])


def leave() -> None:
    """Behind the work a signal ends the tool at once, unless one did."""
    global is_lost
    is_lost = False
    if not came:
        handle(stop)


def handle(how: Callable[..., None] | signal.Handlers) -> None:
    """From here on, but for those that are ignored, as Ctrl-C is by a job in the background, and
    SIGHUP under nohup."""
    for number in SIGNALS:
        if signal.getsignal(number) is not signal.SIG_IGN:
            signal.signal(number, how)
