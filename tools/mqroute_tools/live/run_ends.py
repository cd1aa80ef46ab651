"""How a run of a script ends before its last line."""
from ..common.texts import escaped

NOT_RUN = "; the lines after this one are not run"
NEVER = float("inf")  # a moment that doesn't come


class RunEnds(Exception):
    """What the broker did, after which the script can't go on: a difference. `what` is it in a
    word or two: closed, refused, no answer, no end, no MQTT."""

    def __init__(self, what: str, text: str) -> None:
        self.what, self.why = what, escaped(text)
        super().__init__(self.why + NOT_RUN)


class TimeIsUp(Exception):
    """The run was to be over by now."""
