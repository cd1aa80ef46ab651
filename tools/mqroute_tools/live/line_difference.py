"""What differs at a line of a script."""
from dataclasses import dataclass


@dataclass(frozen=True)
class LineDifference:
    line: int
    did: str  # its command, or "will"
    texts: list[str]  # as replay prints them
    ended: str = ""  # what ended the run here, in a word or two
