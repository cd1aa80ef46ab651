"""Lines of the script on a page."""
from ..common.files import open_input
from .findings import Place
from .html_escape import escaped, visible

TEXT = 300  # of a line so many characters are shown


def lines_of(script: str, wanted: set[int]) -> dict[int, str]:
    """The texts of some lines of the script. None if it was a pipe, which can't be read again."""
    with open_input(script) as stream:
        return {number: shortened(line) for number, line in enumerate(stream, 1)
                if number in wanted}


def shortened(line: bytes) -> str:
    text = line.rstrip(b"\r\n").decode("utf-8", "backslashreplace")
    return text if len(text) <= TEXT else text[:TEXT] + " .."


def script_lines(lines: list[Place], count: int, of: str, texts: dict[int, str]) -> str:
    items = []
    for place in lines:
        names = [name for name in (place.client, place.topic) if name]
        whose = " · ".join(f"<bdi>{visible(name)}</bdi>" for name in names)
        item = f"<div>{whose}</div><div>line {numbered(place.line, texts)}</div>"
        if place.publish:
            item += f"<div>published at line {numbered(place.publish, texts)}</div>"
        items.append(f"<li>{item}</li>")
    found = f"<ol>{''.join(items)}</ol>"
    if count > len(lines):
        found += f"<p class='note'>The first {len(lines)} of {count:,} {of}.</p>"
    return found


def numbered(number: int, texts: dict[int, str]) -> str:
    if number not in texts:
        return f"<b>{number}</b>"
    return f"<b>{number}</b> <code><bdi>{escaped(texts[number])}</bdi></code>"
