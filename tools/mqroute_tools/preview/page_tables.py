"""Tables on a page. On a narrow screen each row becomes a block; the roles say to a screen reader
that it still is a table."""
from collections.abc import Iterable
from dataclasses import dataclass


@dataclass(frozen=True)
class Column:
    name: str
    is_number: bool = False

    def head(self) -> str:
        kind = " class='n'" if self.is_number else ""
        return f"<th scope='col' role='columnheader'{kind}>{self.name}</th>"


def table(name: str, caption: str, columns: Iterable[Column], rows: Iterable[str]) -> str:
    """`rows` are texts of HTML, as is the caption."""
    heads = "".join(column.head() for column in columns)
    return (f"<table id='{name}' class='stacks' role='table'><caption>{caption}</caption>"
            f"<thead role='rowgroup'><tr role='row'>{heads}</tr></thead>"
            f"<tbody role='rowgroup'>\n{''.join(rows)}</tbody></table>\n")


def row(cells: Iterable[str], kind: str = "") -> str:
    return f"<tr role='row'{of_class(kind)}>{''.join(cells)}</tr>\n"


def head_cell(text: str) -> str:
    return f"<th scope='row' role='rowheader'>{text}</th>"


def cell(text: str, kind: str = "", name: str = "", across: int = 1) -> str:
    """`name` stands before it on a narrow screen."""
    named = f" data-name='{name}'" if name else ""
    wide = f" colspan='{across}'" if across > 1 else ""
    return f"<td role='cell'{of_class(kind)}{named}{wide}>{text}</td>"


def number(count: int, kind: str, name: str, more: str = "") -> str:
    return cell(f"{count:,}{more}", f"n {kind}", name)


def of_class(kind: str) -> str:
    return f" class='{kind}'" if kind else ""
