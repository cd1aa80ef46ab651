"""Numbers that an option of the command line may have."""
import argparse
import math
from collections.abc import Callable

MOST_PORT = 65_535


def whole_number(low: int, high: int | None = None) -> Callable[[str], int]:
    """A whole number."""
    def number(text: str) -> int:
        digits = text.removeprefix("-")
        if not (digits.isascii() and digits.isdigit()):
            raise argparse.ArgumentTypeError(f"{text!r} is not a whole number")
        if int(text) < low:
            raise argparse.ArgumentTypeError(f"must be {low} or more")
        if high is not None and int(text) > high:
            raise argparse.ArgumentTypeError(f"must be at most {high}")
        return int(text)
    return number


def amount(text: str) -> float:
    """Of seconds or minutes."""
    try:
        number = float(text)
    except ValueError:
        number = math.nan
    if not math.isfinite(number):
        raise argparse.ArgumentTypeError(f"{text!r} is not a number")
    if number < 0:
        raise argparse.ArgumentTypeError("must be 0 or more")
    return number


port = whole_number(1, MOST_PORT)
