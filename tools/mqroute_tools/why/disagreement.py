"""That what is reckoned here isn't what mqroute wrote: nothing is claimed then."""
from ..common.exit_status import Fault


class Disagreement(Fault):
    """At which line of the script, and in what."""

    def __init__(self, line: int, what: str) -> None:
        super().__init__(f"at line {line} this tool and mqroute disagree, so that it says nothing "
                         f"(please report the script): {what}")
