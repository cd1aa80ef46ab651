"""What an access list allows, as plainly as it can be said, by our own rules and by those of
mosquitto 2.0 (mosquitto.conf(5), `acl_file`; docs/definitions/access-lists.md).
"""
from typing import NamedTuple


class Row(NamedTuple):
    number: int
    is_pattern: bool
    user: str | None
    access: str
    filter: str

    def same(self, other):
        """Whether it says what the other does."""
        return self[1:] == other[1:]


def rows_of(text):
    user, rows = None, []
    for number, line in enumerate(text.split("\n"), 1):
        word, _, rest = line.partition(" ")
        if word == "user":
            user = rest
        elif word in ("topic", "pattern"):
            access, _, topic = rest.partition(" ")
            is_pattern = word == "pattern"
            rows.append(Row(number, is_pattern, None if is_pattern else user, access, topic))
    return rows


def filter_matches(text, topic):
    """MQTT 5.0, section 4.7."""
    wanted, levels = text.split("/"), topic.split("/")
    if levels[0].startswith("$") and wanted[0] in ("+", "#"):
        return False
    if wanted[-1] == "#":
        wanted.pop()
        levels = levels[:len(wanted)]
    return len(wanted) == len(levels) and all(w in ("+", l) for w, l in zip(wanted, levels))


# For whom `who` and `test` say by mosquitto's rules what clients may not.
LIMITED_TO = ("client ids without + and #, and user names without them or in the list; others may "
              "do no more")

# Where bridges tell their state (mosquitto.conf(5), `notifications`).
STATES = "$SYS/broker/connection/+/state"


class OwnRules:
    """A mark stands for a level, and a `deny` line beats each other."""
    words = ["--rules", "own"]

    @staticmethod
    def refuses(_topic, _access):
        return False

    @staticmethod
    def rank(row):
        return row.access != "deny"

    @staticmethod
    def covers(row, client, user, topic):
        if not row.is_pattern:
            return row.user == user and filter_matches(row.filter, topic)
        if topic.startswith("$") and not row.filter.startswith("$"):
            return False
        wanted, levels = row.filter.split("/"), topic.split("/")
        if wanted[-1] == "#":
            wanted.pop()
            levels = levels[:len(wanted)]
        texts = {"%c": client, "%u": user}
        return len(wanted) == len(levels) and all(
            w == "+" or texts.get(w, w) == l for w, l in zip(wanted, levels))


class MosquittoRules:
    """A client's own lines first, then the patterns, with its texts in the place of the marks."""
    words: list[str] = []

    @staticmethod
    def refuses(topic, access):
        """Whether mosquitto refuses it whatever the list says."""
        if topic.startswith("$share"):
            return True
        return (access == "write" and topic.startswith("$SYS")
                and not filter_matches(STATES, topic))

    @staticmethod
    def rank(row):
        return (row.is_pattern, row.access != "deny")

    @staticmethod
    def covers(row, client, user, topic):
        user = user or None
        if not row.is_pattern:
            return row.user == user and filter_matches(row.filter, topic)
        if user is None and "%u" in row.filter or set("+#") & set(client + (user or "")):
            return False
        filled = row.filter.replace("%c", client)
        return filter_matches(filled if user is None else filled.replace("%u", user), topic)


def is_asked(rules, wanted, client, user, topic):
    """Whether a filter that is asked about matches the topic for the client: as that of a `pattern`
    line, and by mosquitto's rules without a mark for every client."""
    if rules is MosquittoRules and "%c" not in wanted and "%u" not in wanted:
        return filter_matches(wanted, topic)
    return rules.covers(Row(0, True, None, "readwrite", wanted), client, user, topic)


def is_taken(rules, rows, client, user):
    """Whether it is said of the client what it may not: by mosquitto's rules no `pattern` line is
    asked of others, nor does a line name them."""
    if rules is OwnRules:
        return True
    if user is not None and is_wild(user):
        return user in {row.user for row in rows}
    return not is_wild(client)


def is_wild(name):
    return bool({"+", "#"} & set(name))


def limits_of(rules):
    """What the answers of `who` and `test` end with as JSON."""
    return [{"limited_to": LIMITED_TO}] if rules is MosquittoRules else []


def number_of(row):
    return row and row.number


def deciding(rules, rows, client, user, topic, access):
    """The row that decides, if one does, and the first that grants. No row decides what the broker
    refuses by itself."""
    judges = sorted((row for row in rows if row.access in (access, "readwrite", "deny")),
                    key=rules.rank)
    covering = [row for row in judges if rules.covers(row, client, user, topic)]
    grants = [row for row in covering if row.access != "deny"]
    row = None if rules.refuses(topic, access) else (covering or [None])[0]
    return row, (grants or [None])[0]


def allowed(rules, rows, client, user, topic, access):
    row, _ = deciding(rules, rows, client, user, topic, access)
    return row is not None and row.access != "deny"


def accesses(rules, rows, client, user, topic):
    """Which of reading and writing are allowed."""
    covering = sorted((row for row in rows if rules.covers(row, client, user, topic)),
                      key=rules.rank)
    found = set()
    for access in ("read", "write"):
        row = next((row for row in covering if row.access in (access, "readwrite", "deny")), None)
        if row is not None and row.access != "deny" and not rules.refuses(topic, access):
            found.add(access)
    return found
