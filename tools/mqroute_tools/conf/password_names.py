"""The user names of a password file of mosquitto's. Nothing of the passwords is kept."""
from ..common.exit_status import Fault
from ..common.messages import in_words

BLANKS = b" \t\v\f\r\n"


def names_of(path: str) -> list[str]:
    """Those with a password: mosquitto 2.0 takes blanks around a name off, passes over comments and
    lines without a colon, and drops a user whose password is empty. Raises Fault where the file
    can't be read."""
    try:
        with open(path, "rb") as stream:
            names = [name_in(line) for line in stream]
    except OSError as fault:
        raise Fault(in_words(fault)) from fault
    return [name for name in dict.fromkeys(names) if name]


def name_in(line: bytes) -> str:
    """Empty where there is none."""
    name, _, password = line.partition(b":")
    if line.startswith(b"#") or not password.strip(BLANKS):
        return ""
    return name.strip(BLANKS).decode("utf-8", "replace")
