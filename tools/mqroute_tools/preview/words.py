"""The words for what a preview finds, in the text and on the page."""
from collections.abc import Callable, Iterable

from ..common.messages import counted
from ..common.tables import shown, user_shown
from ..script.rules import WHOSE
from .findings import GAINED, Client, Preview, RefusedRow, Right, Scope, UserRow
from .gathered_topics import Topics

MOST_NAMES = 4  # of user names that a right is of
MOST_FILTERS = 3  # that narrow a right
MOST_ABSENT = 3  # of those whom it isn't of, where it is of nearly everybody
NO_NAME = "clients without a user name"
NO_LINE, NO_RULE = "no line allows it", "no line is about it"
CARRIED = "What the plan can't carry over as it is"
RETAINED = "Retained under old names when the script ends"
AWAY = "Away when the script ends, with subscriptions under old names"
NO_TOPIC = "on names that no topic of the script has"
NO_USE = "if nobody uses them, the plan can say so:"
OTHERWISE = "another QoS, RETAIN flag, payload or expiry"


def whom(user: str | None) -> str:
    return NO_NAME if user is None else user_shown(user)


def verb(user: str | None, word: str) -> str:
    """`loses` of a user, and `lose` of the clients without a user name."""
    plurals = {"has": "have"}
    return word if user is not None else plurals.get(word, word.removesuffix("s"))


def share(part: int, whole: int) -> str:
    """In percent, as a whole number."""
    percent = round(100 * part / whole)
    if percent == 100 and part < whole:
        return "over 99 %"
    return f"{percent} %" if percent or not part else "under 1 %"


def loses(row: UserRow) -> str:
    amount = (f"all {row.before:,}" if row.lost == row.before else
              f"{row.lost:,} of {row.before:,} ({share(row.lost, row.before)})")
    return f"{verb(row.user, 'loses')} {amount}"


def gains(row: UserRow) -> str:
    return f"{verb(row.user, 'gains')} {row.gained:,}, to {row.after:,}"


def changes(row: UserRow) -> list[str]:
    """What becomes of a user's messages, without the name."""
    parts = [loses(row)] if row.lost else []
    parts += [gains(row)] if row.gained else []
    return parts + ([f"{verb(row.user, 'gets')} {row.changed:,} with {OTHERWISE}"]
                    if row.changed else [])


def refusals(row: RefusedRow) -> str:
    parts = [f"{counted(number, 'publishes', ',')} {word}" for number, word in (
        (row.refused, "refused"), (row.accepted, "no longer refused")) if number]
    return f"{verb(row.user, 'has')} {' and '.join(parts)}"


def topic_count(row: Topics) -> str:
    """Of a filter that stands for several."""
    return f" ({row.topics:,} topics)" if row.topics > 1 else ""


def number_form(number: int, word: str) -> str:
    return f"{number:,} {word}s" if number == 1 else f"{number:,} {word}"


def summary(found: Preview) -> str:
    """All in one line."""
    losing, gaining = len(found.losing()), len(found.gaining())
    loses = "loses" if losing == 1 else "lose"
    return (f"{counted(losing, 'users', ',')} {loses} {found.copies.lost:,} of "
            f"{counted(found.copies.before, 'messages', ',')}, {number_form(gaining, 'gain')}; "
            f"{counted(len(found.granted), 'rights granted', ',')}, {len(found.taken):,} taken "
            f"away; {counted(len(found.subscriptions), 'subscriptions', ',')} can receive nothing "
            f"any more")


def waits(number: int) -> str:
    """How much waits for a client that is away."""
    return f"{counted(number, 'messages', ',')} {'waits' if number == 1 else 'wait'}"


def tried(found: Preview) -> str:
    """On how much it was tried, and by whose rules."""
    return (f"{counted(found.facts.clients, 'clients', ',')}, "
            f"{counted(found.facts.publishes, 'publishes', ',')}; by {WHOSE[found.rules]}")


# -- rights, as mqroute-acl compare words them

def may(right: Right) -> str:
    return f"may {'now' if right.change == GAINED else 'no longer'} {right.access}"


def names(clients: Iterable[Client]) -> list[str]:
    """The user names that are of themselves."""
    return [shown(one.user) for one in clients
            if one.user is not None and not one.is_any_user()]


def concerned(right: Right, most: int = MOST_NAMES) -> str:
    """Whom a right is of: `most` user names."""
    named = names(right.clients)
    absent = [user for user in right.known if user not in named]
    has_others = any(one.is_any_user() for one in right.clients)
    named += map(shown, right.others or ()) if has_others else ()
    if len(named) > MOST_NAMES and len(absent) <= MOST_ABSENT and has_others:
        return all_but(absent, any(one.user is None for one in right.clients))
    parts = ["no user name"] if any(one.user is None for one in right.clients) else []
    if named:
        more = f" and {len(named) - most:,} more" if len(named) > most else ""
        users = "user" if len(named) == 1 else "users"
        parts.append(f"{users} {', '.join(named[:most])}{more}")
    if has_others and right.others is None:
        parts.append("other users")
    return "; ".join(parts)


def all_but(absent: list[str], with_nameless: bool) -> str:
    """In place of a long list of names."""
    everybody = "everybody" if with_nameless else "all users"
    return f"{everybody} but {', '.join(map(shown, absent))}" if absent else everybody


def kind_of(client: Client, level: str) -> str:
    """What a level is that stands for others."""
    if level == client.client:
        return "client id and user" if level == client.user else "client id"
    if level == client.user:
        return "user"
    return (part(client.client, "client id", level) or part(client.user or "", "user", level)
            or "level")


def part(text: str, kind: str, level: str) -> str:
    """Which level of a text of several it is; nothing where it is none."""
    levels = text.split("/")
    return f"{kind} {levels.index(level) + 1}" if len(levels) > 1 and level in levels else ""


def level_shown(client: Client, place: int, level: str) -> str:
    if level not in client.placeholders:
        return level
    kind = kind_of(client, level)
    hidden = level.startswith("$") and (place == 0 or kind == "level")
    return f"<{'$' if hidden else ''}{kind}>"


def topic_of(right: Right) -> str:
    """The topic, and the new name that a plan gives it, with what stands for others in the place of
    their levels."""
    first = right.clients[0]
    names = dict.fromkeys([right.topic, right.new_topic or right.topic])
    return " -> ".join("/".join(level_shown(first, place, level)
                                for place, level in enumerate(name.split("/"))) for name in names)


def example_of(right: Right) -> str:
    """The words before the topic, if the lines that decide have wildcards, and so may decide about
    others too."""
    lines = right.deciding.current, right.deciding.proposed, right.rule
    several = all("+" in line.text or "#" in line.text for line in lines if line)
    return "for example " if several else ""


def but_for(scope: Scope, name: Callable[[str], str]) -> str:
    """Behind the filter, of which it leaves something out."""
    if not scope.but_for:
        return ""
    first, rest = scope.but_for[:MOST_FILTERS], len(scope.but_for) - MOST_FILTERS
    more = f" and {rest:,} more" if rest > 0 else ""
    return f", but for {', '.join(map(name, first))}{more}"


def publishes_of(scope: Scope) -> str:
    """Behind the topic, if the script has it."""
    return f" ({counted(scope.published, 'publishes', ',')})" if scope.published else ""


def scope_of(right: Right) -> list[str]:
    """Which topics a right is of, and one of them."""
    scope = right.scope
    if scope is None:
        return [f"{example_of(right)}{shown(topic_of(right))}"]
    words = f"{'some of ' if scope.in_part else ''}{shown(scope.filter)}{but_for(scope, shown)}"
    such_as = f"such as {shown(scope.topic)}{publishes_of(scope)}" if scope.topic else ""
    return [words, such_as]


def used(rights: list[Right]) -> list[Right]:
    return [one for one in rights if not one.unused]


def unused(rights: list[Right]) -> list[Right]:
    """Those on names that no topic of the script has."""
    return [one for one in rights if one.unused]


def client_of(right: Right) -> str:
    """The client id, where it stands for itself alone."""
    first = right.clients[0]
    if first.client in first.placeholders:
        return ""
    if not first.stands_for_others(first.client):
        return f'client id: "{shown(first.client)}"'
    levels = (level_shown(first, 0, level) for level in first.client.split("/"))
    return f"client id: {shown('/'.join(levels))}"
