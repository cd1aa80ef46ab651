"""The words in which mqroute-acl compare shows differences, made of what it says as JSON: each row
has its clients, its topic and both of its lines in their places (random_lists.py)."""

ACCESS = {("gained", "read"): "may now read", ("gained", "write"): "may now write",
          ("lost", "read"): "may no longer read", ("lost", "write"): "may no longer write"}
NAMES = 4  # so many user names are shown in a row


def is_of_others(one, named):
    """Whether its user name stands for all that lists with lines for these users don't name."""
    return (one["user"] not in {None, *named}
            and bool(set(one["user"].split("/")) & set(one["placeholders"])))


def whom(alike, named):
    """The clients of differences that are alike, where lists have lines for these users."""
    users = [one["user"] for one in alike if not is_of_others(one, named)]
    names = [user for user in users if user is not None]
    parts = ["no user name"] if None in users else []
    if names:
        more = len(names) - NAMES
        parts.append(("user " if len(names) == 1 else "users ") + ", ".join(names[:NAMES])
                     + (f" and {more} more" if more > 0 else ""))
    if len(users) < len(alike):
        parts.append("other users")
    return "; ".join(parts)


def level(one, place, text, named):
    """A level of the topic, or what it stands for. A client id or a user name, or a level of it,
    stands for those alone that begin with $ only at the front of a topic."""
    if text not in one["placeholders"]:
        return text
    texts = {"client id": one["client"]} | (
        {} if one["user"] in {None, *named} else {"user": one["user"]})
    names = [name for name in ("client id", "user")
             if text == (one["client"] if name == "client id" else one["user"])]
    parts = [f"{name} {whole.split('/').index(text) + 1}" for name, whole in texts.items()
             if text in whole.split("/")]
    hidden = text.startswith("$") and (place == 0 or not names and not parts)
    return f"<{'$' if hidden else ''}{' and '.join(names) or (parts or ['level'])[0]}>"


def levels(one, text, named):
    return "/".join(level(one, *each, named) for each in enumerate(text.split("/")))


def topic(one, named):
    """It, and the client id and the user name where they aren't any."""
    shown = levels(one, one["topic"], named)
    for name, text in (("client id", one["client"]), ("user", one["user"])):
        if text is None or text in one["placeholders"]:
            continue
        if set(text.split("/")) & set(one["placeholders"]) and text not in named:
            shown += f"  {name}: {levels(one, text, named)}"
        elif name == "client id":
            shown += f"  {name}: \"{text}\""
    return shown


def side(file, line):
    """The place of what decides in a list, its words, and whether it may decide about several
    topics."""
    if line is None:
        return file, "no line allows it", True
    return f"{file}:{line['line']}", line["text"], bool({"+", "#"} & set(line["text"]))


def rows(differences):
    """The first of those that are alike, with all of them, in their order."""
    gathered = {}
    for one in differences:
        lines = [one[name] and one[name]["line"] for name in ("old", "new")]
        gathered.setdefault((one["access"], one["change"], one["topic"], *lines), []).append(one)
    return [(alike[0], alike) for alike in gathered.values()]


def words_of(rules, differences, named):
    """What is printed of these differences, of which there is one at least, of lists with lines for
    these users."""
    shown = rows(differences)
    sides = [[side("old.acl", one["old"]), side("new.acl", one["new"])] for one, _ in shown]
    access = max(len(ACCESS[one["change"], one["access"]]) for one, _ in shown)
    places = max(len(place) for both in sides for place, _, _ in both)
    text, before = "", None
    for (one, alike), both in zip(shown, sides):
        text += f"{whom(alike, named)}\n" if whom(alike, named) != before else ""
        before = whom(alike, named)
        example = "for example " if all(several for _, _, several in both) else ""
        text += f"  {ACCESS[one['change'], one['access']]:{access}}  {example}{topic(one, named)}\n"
        text += "".join(f"    {place:{places}}  {words}\n" for place, words, _ in both)
    of_whom = " by mosquitto's rules" if not rules.words else ""
    return text + f"{len(shown)} difference{'s' if shown[1:] else ''}{of_whom}\n"
