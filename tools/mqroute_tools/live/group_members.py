"""Which member of a group is served is the server's choice (MQTT 5.0, 4.8.2)."""
from collections.abc import Iterator
from itertools import islice, product

from ..script.output import Command
from ..script.sessions import Sessions
from .broker_diff import Copy, different_copies

MOST = 1000  # choices that are tried


def copy_of_member(message: Command, client: str, group: str, sessions: Sessions) -> Copy:
    """The copy of a group's message as this member would get it."""
    subscription = sessions.filters[client][group]
    return Copy(client, message["topic"],
                min(message.get("qos", 0), subscription.get("qos", 0)),
                bool(message.get("retain") and subscription.get("rap")),
                message.get("payload", ""),
                [subscription["id"]] if "id" in subscription else [], message.get("expiry"), group)


def members(copy: Copy, message: Command, sessions: Sessions) -> Iterator[Copy]:
    """The copy as each connected member of its group would get it."""
    for client, _ in sessions.members(copy.group):
        yield copy_of_member(message, client, copy.group, sessions)._replace(
            expiry=copy.expiry, late=copy.late)


def with_their_members(ours: list[Copy], theirs: list[Copy], message: Command,
                       sessions: Sessions) -> list[Copy]:
    """Our copies of a message, those of groups for the members that the broker chose; as they are
    where no choice explains what it sent."""
    plain = [copy for copy in ours if not copy.group]
    choices = [list(members(copy, message, sessions)) for copy in ours if copy.group]
    for chosen in islice(product(*choices), MOST):
        if not different_copies([*plain, *chosen], theirs, sessions):
            return [*plain, *chosen]
    return ours
