"""A line of a script, for scripts that are given piece by piece."""
import json

FOREVER = 4_294_967_295  # an interval that doesn't end


def line(do, client="client-0", **fields):
    return (
        json.dumps({"do": do, "client": client, **fields}, separators=(",", ":")) + "\n").encode()
