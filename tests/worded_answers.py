"""The words in which mqroute-acl answers why, reach, lint, test and who, made of what it says as
JSON: each has its client, its topic and its lines in their places (random_lists.py)."""
from plain_lists import LIMITED_TO
from shown_differences import known_in, texts_of
from worded_differences import side, topic, whom

REFUSED = {
    "read": "mosquitto lets no client read topics that begin with $share, whatever the list says",
    "write": "mosquitto lets no client write topics that begin with $share, or with $SYS but for "
             "$SYS/broker/connection/+/state, whatever the list says"}


def client_words(client, user):
    return f"client {client}, {'no user name' if user is None else f'user {user}'}"


def name_note(rows, client, user):
    """A line about the client's name, where another may be meant by what the list has."""
    names = [row.user for row in rows if row.user is not None]
    if user is None:
        return (f"{client} is a user name of the list: --user {client} asks about its clients\n"
                if client in names else "")
    if user in names:
        return ""
    like = [name for name in names if name.lower() == user.lower()]
    return f"no line names user {user}" + (f"; {like[0]}?" if like else "") + "\n"


def line_words(line):
    return f"{line['file']}:{line['line']}  {line['text']}\n"


def verdict_words(one):
    """Whether the client may, and the lines that decide it."""
    grant = one["grant"]
    if one["allowed"]:
        return f"may {one['access']}: {line_words(grant)}"
    may_not = f"may not {one['access']}: "
    otherwise = f"    would be allowed by {line_words(grant)}" if grant else ""
    if one.get("refused"):
        return f"{may_not}{REFUSED[one['access']]}\n{otherwise}"
    if one["deny"]:
        return f"{may_not}{line_words(one['deny'])}{otherwise}"
    return f"{may_not}no line allows it\n"


def why_words(rows, client, user, asked, shown):
    return (f"{client_words(client, user)}, topic {asked}\n{name_note(rows, client, user)}"
            + "".join(verdict_words(one) for one in shown))


def reach_words(rows, client, user, shown):
    found = "nothing" if shown["topic"] is None else shown["topic"]
    return (f"{client_words(client, user)}: {shown['filter']} can be sent {found}\n"
            f"{name_note(rows, client, user)}")


def limit_words(rules):
    return "" if rules.words else f"the answer is for {LIMITED_TO}\n"


def any_words(shown, named):
    user = "no user name" if shown["user"] is None else f"user {shown['user']}"
    text = f"any client id, {user}: {shown['filter']} can be sent "
    if shown["topic"] is None:
        text += "nothing\n"
    else:
        text += f"{topic(shown, named)}\n    {line_words(shown['line'])}"
    return text


def lint_words(shown):
    """What is said of a list, of which something is."""
    return "".join(
        f"{one['file']}: {one['words']}\n" if one["line"] is None
        else f"{one['file']}:{one['line']}: {one['words']}\n    {one['text']}\n" for one in shown)


def verdict_of_test(one, named):
    """A line that doesn't hold, with what shows it: of one list."""
    text = f"{one['file']}:{one['line']}: {one['text']}\n"
    if one["topic"] is None:
        of_list = f"{one['list']}  " if one["kind"] in ("none may", "unnamed") else ""
        return f"{text}    {of_list}{one['words']}\n"
    place, words, several = side(one["list"], one["decided"])
    asked = one["text"].partition(" except ")[0].split()[-1]
    example = "for example " if several and {"+", "#"} & set(asked) else ""
    may = "may" if one["decided"] and " deny " not in one["decided"]["text"] else "may not"
    return (f"{text}    {may} {one['access']}  {whom([one], named)}  {example}{topic(one, named)}\n"
            f"    {place}  {words}\n")


def tested_words(rules, shown, named):
    *shown, counts = shown
    text = "".join(verdict_of_test(one, named) for one in shown if not one["holds"])
    whose = "" if rules.words else " by mosquitto's rules"
    return f"{text}{counts['hold']} of {counts['expectations']} hold{whose}\n{limit_words(rules)}"


def placeholders_of(rules, rows, wanted, one):
    """The texts of a client and a topic that neither a line nor the filter names."""
    return texts_of(rules, one) - known_in(rules, rows) - set(wanted.split("/"))


def permission_rows(rules, rows, wanted, shown):
    """What is allowed in rows of those that are shown alike, each with its clients."""
    several, named = bool({"+", "#"} & set(wanted)), {row.user for row in rows} - {None}
    gathered = {}
    for one in shown:
        place, words, may_have = side("old.acl", one["line"])
        example = "for example " if several and may_have else ""
        what = "every topic" if one["every"] else f"{example}{topic(one, named)}"
        row = [(f"may {one['access']}", what, place, words)]
        for other in (other for other in one["not"] if other["line"]):
            place, words, may_have = side("old.acl", other["line"])
            example = "for example " if several and may_have else ""
            unnamed = placeholders_of(rules, rows, wanted, other)  # which JSON doesn't say of these
            denied = topic(other | {"placeholders": unnamed}, named)
            row.append(("", f"but not {example}{denied}", place, words))
        gathered.setdefault(tuple(row), []).append(one)
    return gathered.items()


def who_words(rules, rows, wanted, shown, last):
    """What is printed of these permissions, with these objects behind them."""
    if not shown:
        text = f"nobody may read or write a topic of {wanted}\n"
    else:
        table = permission_rows(rules, rows, wanted, shown)
        widths = [max(len(line[place]) for row, _ in table for line in row) for place in range(3)]
        text, before, named = "", None, {row.user for row in rows} - {None}
        for row, alike in table:
            text += f"{whom(alike, named)}\n" if whom(alike, named) != before else ""
            before = whom(alike, named)
            for line in row:
                cells = "  ".join(f"{cell:{width}}" for cell, width in zip(line, widths))
                text += f"  {cells}  {line[3]}\n"
    refused = [f"{REFUSED[each['refused']]}\n" for each in last if "refused" in each]
    return text + "".join(refused) + limit_words(rules)


def faults_of_words(run, folder, words, wanted):
    """What is wrong with what is printed of a question without `--json`."""
    worded = run([word for word in words if word != "--json"], folder).stdout
    if worded != wanted:
        yield f"{words} is worded otherwise than {wanted!r}: {worded!r}"
