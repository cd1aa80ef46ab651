"""A client that a script gets beside its own: the bridge, or who moves what is retained."""
from ..common.exit_status import Fault
from ..common.texts import quoted
from ..script.output import command_of


def client_and_user(text: str) -> tuple[str, str | None]:
    """Of ID[:USER]."""
    client, _, user = text.partition(":")
    return client, user or None


def refuse_taken(lines: list[bytes], client: str, name_it: str) -> None:
    """Raises Fault where the script has it already; `name_it` says how to name it otherwise."""
    if any((command_of(line) or {}).get("client") == client for line in lines):
        raise Fault(f"the script has a client {quoted(client)} of its own: name {name_it}")
