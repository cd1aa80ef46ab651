"""Topic names and topic filters as lists of levels: which names a filter matches, the filter that
two filters have in common, and the least filter above two."""

PLUS, HASH = "+", "#"
MOST_BYTES, MOST_LEVELS = 65_535, 200
SHARE = "$share/"

Levels = tuple[str, ...]


def levels(text: str) -> Levels:
    return tuple(text.split("/"))


def text_of(parts: Levels) -> str:
    return "/".join(parts)


def is_wild(level: str) -> bool:
    return level in (PLUS, HASH)


def begins_with_dollar(parts: Levels) -> bool:
    return parts[0].startswith("$")


def has_fit_size(parts: Levels) -> bool:
    """Whether a text with these levels may be a topic name or a filter (1.5.4, 4.7.3), and has no
    more levels than mqroute takes."""
    size = len(text_of(parts).encode("utf-8", "surrogatepass"))
    return 1 <= size <= MOST_BYTES and len(parts) <= MOST_LEVELS


def is_name(parts: Levels) -> bool:
    """Whether they are the levels of a topic name."""
    return has_fit_size(parts) and not any(set("+#\0") & set(level) for level in parts)


def is_filter(parts: Levels) -> bool:
    """Whether they are the levels of a topic filter (4.7.1)."""
    last = len(parts) - 1
    return has_fit_size(parts) and all(
        is_filter_level(level, place == last) for place, level in enumerate(parts))


def is_filter_level(level: str, is_last: bool) -> bool:
    if level == PLUS or (level == HASH and is_last):
        return True
    return not set("+#\0") & set(level)


def split_share(text: str) -> tuple[str, Levels] | None:
    """What a client subscribes to: `$share/NAME/` or an empty text, and the filter (4.8.2); None
    where it is none of both."""
    if not text.startswith(SHARE):
        return ("", levels(text)) if is_filter(levels(text)) else None
    name, slash, wanted = text.removeprefix(SHARE).partition("/")
    if not name or set("+#\0") & set(name) or not slash or not is_filter(levels(wanted)):
        return None
    return f"{SHARE}{name}/", levels(wanted)


def levels_match(wanted: Levels, name: Levels) -> bool:
    """Without the rule on `$`."""
    if wanted[-1:] == (HASH,):
        wanted = wanted[:-1]
        if len(name) < len(wanted):
            return False
        name = name[:len(wanted)]
    return len(wanted) == len(name) and all(w in (PLUS, n) for w, n in zip(wanted, name))


def matches(wanted: Levels, name: Levels) -> bool:
    """Whether the filter matches the topic name (4.7)."""
    if begins_with_dollar(name) and is_wild(wanted[0]):
        return False
    return levels_match(wanted, name)


def meet(one: Levels, other: Levels) -> Levels | None:
    """The filter that matches exactly the names that both match, or None where there are none."""
    if is_wild(one[0]) and begins_with_dollar(other):
        return None
    if is_wild(other[0]) and begins_with_dollar(one):
        return None
    met = meet_levels(one, other)
    return None if met in (None, ("",)) else met


def meet_levels(one: Levels, other: Levels) -> Levels | None:
    met: Levels = ()
    for place in range(max(len(one), len(other))):
        left, right = one[place:place + 1], other[place:place + 1]
        if left == (HASH,):
            return met + other[place:]
        if right == (HASH,):
            return met + one[place:]
        if not left or not right:
            return None
        if right in ((PLUS,), left):
            met += left
        elif left == (PLUS,):
            met += right
        else:
            return None
    return met


def normal(wanted: Levels) -> Levels:
    """One filter for each set of names: a name has a level, and one empty level alone is none."""
    return {(PLUS, HASH): (HASH,), ("", PLUS, HASH): ("", HASH)}.get(wanted, wanted)


def covers(one: Levels, other: Levels) -> bool:
    """Whether the first filter matches each name that the other matches."""
    met = meet(one, other)
    return met is not None and normal(met) == normal(other)


def join(one: Levels, other: Levels) -> Levels | None:
    """The least filter above both; None where there is none: they begin differently, and one of
    them with `$`."""
    if one == other:
        return one
    if one[0] != other[0] and (begins_with_dollar(one) or begins_with_dollar(other)):
        return None
    joined: list[str] = []
    for place in range(max(len(one), len(other))):
        left, right = one[place:place + 1], other[place:place + 1]
        if not left or not right or HASH in (left[0], right[0]):
            joined.append(HASH)
            break
        joined.append(left[0] if left == right else PLUS)
    return tuple(joined)
