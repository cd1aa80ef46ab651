"""Names of other people's on a page: what they hold is text, and neither markup
nor a direction of writing."""
import html

from ..common import texts
from ..common.tables import shown, user_shown
from .findings import Subject


def visible(text: str) -> str:
    """A client id or topic for a page."""
    return escaped(shown(text))


def escaped(text: str) -> str:
    return html.escape(texts.escaped(text), quote=True)


def marked(row: Subject) -> str:
    """The client or the user name of a row."""
    return escaped(user_shown(row.name)) if row.by_user() else visible(row.name or "")
