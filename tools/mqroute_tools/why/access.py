"""The access list that is in force at a line, asked by mqroute-acl."""
from collections.abc import Iterable

from ..common.tables import shown, user_shown
from ..script.access_list import REFUSED, AccessList, Line, Question, Verdict
from .history import History


class Access:
    def __init__(self, asked: AccessList | None, line: int = 0) -> None:
        self.list, self.line = asked, line  # the line of the script that set it, or 0

    def ask_all(self, questions: Iterable[Question]) -> None:
        """At once, what `verdict` will be asked."""
        if self.list is not None:
            self.list.ask_all(questions)

    def verdict(self, asked: Question) -> Verdict | None:
        """None where there is no list, and so all is allowed."""
        return None if self.list is None else self.list.verdict(asked)

    def words(self, verdict: Verdict | None, user: str | None) -> str:
        """What decides."""
        if self.list is None or verdict is None:
            return "there is no access list"
        if verdict.refused:
            return REFUSED
        line = verdict.deciding_line()
        if line is None:
            whom = "a client without a user name" if user is None else f"user {user_shown(user)}"
            return f"no line of {self.name()} allows it to {whom}"
        otherwise = verdict.grant if verdict.deny else None
        more = f"; {self.place(otherwise)} would allow it" if otherwise else ""
        return f"{self.place(line)}  {shown(line.text.strip())}{more}"

    def name(self) -> str:
        return f"the list of line {self.line}" if self.line or not self.list else self.list.name

    def place(self, line: Line) -> str:
        return f"{self.name()}, line {line.line}" if self.line else f"{line.file}:{line.line}"


def access_at(history: History, given: AccessList | None, rules: str) -> Access:
    """The list that a line of the script set, or else that of --acl-file."""
    if not history.list_line:
        return Access(given)
    if history.list_text is None:
        return Access(None)
    text = history.list_text.encode("utf-8")
    found = Access(None, history.list_line)
    found.list = AccessList(found.name(), rules, text)
    return found


def may(verdict: Verdict | None) -> bool:
    return verdict is None or verdict.allowed
