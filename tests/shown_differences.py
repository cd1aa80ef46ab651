"""What is wrong with a difference of two lists that is shown (random_lists.py)."""
from plain_lists import STATES, MosquittoRules, allowed, deciding, number_of


def faults_of_shown(rules, shown, old, new):
    """What is wrong with a difference that is shown."""
    client, user, topic, access = shown["client"], shown["user"], shown["topic"], shown["access"]
    by_old, by_new = (allowed(rules, rows, client, user, topic, access) for rows in (old, new))
    if (by_old, by_new) != ((False, True) if shown["change"] == "gained" else (True, False)):
        yield "is none"
    for rows, line in ((old, shown["old"]), (new, shown["new"])):
        row, _ = deciding(rules, rows, client, user, topic, access)
        if line_of(line) != number_of(row):
            yield f"is decided by {row}"


def texts_of(rules, shown):
    """Its texts, and by mosquitto's rules their levels, but for a client id with a wildcard."""
    names = [shown["client"], shown["user"]]
    if rules is MosquittoRules:
        names = [level for name in names if name not in (None, "+") for level in name.split("/")]
    return {*names, *shown["topic"].split("/")} - {None}


def known_in(rules, rows):
    """The texts that rows name, and by mosquitto's rules the levels."""
    users = {row.user for row in rows} - {None}
    known = {text for row in rows for text in row.filter.split("/")}
    if rules is not MosquittoRules:
        return known | users
    return known | {level for user in users for level in user.split("/")} | set(STATES.split("/"))


def moved(rules, shown, text, other):
    """With another text in the place of this one."""
    def put(name):
        if rules is MosquittoRules and name not in (None, "+"):
            return "/".join(other if level == text else level for level in name.split("/"))
        return other if name == text else name

    topic = "/".join(other if level == text else level for level in shown["topic"].split("/"))
    return {**shown, "client": put(shown["client"]), "user": put(shown["user"]), "topic": topic}


def faults_of_placeholders(rules, shown, old, new):
    """What is wrong with its placeholders: they are those of its texts that no line names, and with
    another text in the place of each it is shown as rightly."""
    unnamed = texts_of(rules, shown) - known_in(rules, old + new)
    if set(shown["placeholders"]) != unnamed:
        yield f"has other placeholders than {unnamed}"
    for text in shown["placeholders"]:
        other = "$elsewhere" if text.startswith("$") else "elsewhere"
        for fault in faults_of_shown(rules, moved(rules, shown, text, other), old, new):
            yield f"with {other} for {text} {fault}"


def line_of(line):
    return line and line["line"]
