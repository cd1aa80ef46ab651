"""The page of a preview that says nothing: another list was in force, or that isn't known."""
from ..common.files import whole
from ..common.page_frame import ENDING, beginning
from ..losses.html_escape import escaped
from .in_force import NoAnswer
from .page_style import STYLE


def page(fault: NoAnswer, title: str) -> str:
    said = fault.check.in_words()
    more = [line for line in fault.lines() if line != said]
    items = "".join(f"<li><bdi>{escaped(line.strip())}</bdi></li>\n" for line in more)
    listed = f"<section><h2>What is known</h2>\n<ul>{items}</ul></section>\n"
    return (f"{beginning(escaped(title), STYLE)}<header><h1>{escaped(title)}</h1>\n"
            f"<p id='verdict' class='loss'>{escaped(said)}</p>\n</header>\n"
            f"{listed if more else ''}<p id='summary'>{escaped(said)}</p>\n{ENDING}")


def write(name: str, fault: NoAnswer, title: str) -> None:
    with whole(name) as out:
        out.write(page(fault, title).encode())
