"""How far a long run is, on standard error where that is a terminal."""
import sys
import time

EVERY = 0.5  # seconds


class Progress:
    def __init__(self, things: str = "line") -> None:
        self.things = things
        self.shown = sys.stderr.isatty()
        self.next = time.monotonic() + EVERY
        self.width = 0
        self.of = 0

    def at(self, line: int, of: int) -> None:
        self.of = of
        if self.shown and time.monotonic() >= self.next:
            self.next = time.monotonic() + EVERY
            self.show(f"{self.things} {line} of {of}")

    def show(self, text: str) -> None:
        """At once, over what stood there."""
        if self.shown:
            print(text.ljust(self.width), end="\r", file=sys.stderr, flush=True)
            self.width = len(text)

    def clear(self) -> None:
        """Before something else is written to the terminal."""
        if self.width:
            print(" " * self.width, end="\r", file=sys.stderr, flush=True)
            self.width = 0
