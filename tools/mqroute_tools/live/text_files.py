"""Files of text that stand beside a script."""
from pathlib import Path

from ..common.files import decoded, open_input


def read_utf8(file: Path) -> str:
    with open_input(str(file)) as stream:
        return decoded(stream.read(), str(file))
