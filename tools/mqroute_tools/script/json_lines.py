"""Reads lines of JSON."""
import json
from collections.abc import Callable
from typing import Any


def line_reader(decoder: json.JSONDecoder) -> Callable[[str], Any]:
    """What reads a text as the decoder does, which looks for white space around each by two
    patterns: most lines have none but their end."""
    raw_decode, decode = decoder.raw_decode, decoder.decode

    def read(text: str) -> Any:
        if text.startswith("{"):
            value, end = raw_decode(text)
            if end == len(text) or text[end:] == "\n":
                return value
        return decode(text)
    return read
