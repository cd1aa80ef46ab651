#!/usr/bin/env python3
"""Rules of the sources that no contract can see. It fails, and says where, if one doesn't hold.

A `Steps` counts what a look-up enters, and the contracts speak of the count that is handed in. A
body that makes a count of its own walks as far as it likes, and no contract sees it. So
`Steps::new` is called by `Router::apply` alone, outside tests: there nobody asks for the count.
Elsewhere `Steps` stands as what is lent, `&mut Steps`, and nowhere else: an alias, a field or a
result could hide one that is made. And the file that has it makes one in `new` alone (COUNTS).

A contract of the router speaks of its model, which is made of the fields of its structs. A field
that the model doesn't name may hold anything, and grow for ever, and each function is still proved.
So MADE_OF has the fields of each struct and the variants of each enum that a router is made of: one
that is not in it is refused, until somebody who has seen what the model says of it writes it down
here.

A crate's out/ is the toolchain's: it stops at a link there, and it may take away whatever else it
finds.
"""
import os
import pathlib
import re
import sys

from faults import status_of

TOP = pathlib.Path(__file__).resolve().parent.parent

# The crates that a router is made of, and the one of tests, which may count what it likes.
ROUTER = [
    "mq_router", "mq_subscriptions", "mq_retained", "mq_sessions", "mq_world", "mq_acl", "mq_tree",
    "mq_topic"]
TESTS = "mq_tests"

MADE_OF = {
    "Router": "alloc: Global, limits: Limits, rules: Rules, clock: Clock, access: Option<Acl>, "
    "sessions: Sessions, subscriptions: Subscriptions, retained: Retained",
    "Limits": "retained: Option<u32>, queued: u32",
    "Clock": "moment: u64",
    "Acl": "rules: Rules, by_access: RowsByAccess, asks_client: bool, order: Snapshot<Vec<Row>>",
    "Rules": "Own, Mosquitto",
    "Sessions": "by_id: BTreeMap<RcStr, Session>, index: Index",
    "Index": "ends: Ends, spare: Ends, count: usize",
    "Ends": "heap: BinaryHeap<(Reverse<u64>, RcStr)>",
    "Subscriptions": "alloc: Global, tree: LevelTree<FilterEntry>, count: u64, lists: ClientLists",
    "Retained": "alloc: Global, tree: Messages, deadlines: Deadlines",
    "RowsByAccess": "denies: ByOwner<Row>, grants: ByOwner<Row>",
    "ByOwner": "everyone: Vec<T>, anonymous: Vec<T>, named: BTreeMap<String, Vec<T>>",
    "Row": "line: u64, owner: Owner, access: Access, filter: TopicFilter",
    "Session":
    "user: Option<String>, interval: u32, presence: Presence, waiting: LinkedList<Waiting>",
    "LevelTree": "alloc: Global, root: Node<V>, nodes: u64",
    "FilterEntry":
    "filter: Rc<TopicFilter>, unshared: BTreeMap<RcStr, SubscriptionOptions>, groups: ShareGroups",
    "ShareGroups": "by_share: BTreeMap<RcStr, Group>",
    "ClientFilters": "texts: BTreeSet<RcStr>",
    "ClientLists": "by_client: BTreeMap<RcStr, ClientFilters>",
    "Messages": "by_topic: LevelTree<Stored>, count: u64",
    "Deadlines": "pairs: BTreeSet<Due>",
    "Owner": "Anonymous, Named(String), Everyone",
    "Access": "Read, Write, ReadWrite, Deny",
    "TopicFilter": "text: String",
    "Presence": "Connected { id: RcStr }, Away { end: Option<u64> }",
    "Waiting": "copy: Delivery, deadline: Option<u64>",
    "Node": "value: Option<V>, children: BTreeMap<String, Box<Node<V>>>",
    "SubscriptionOptions": "qos: u8, no_local: bool, rap: bool, handling: u8, id: Option<u32>",
    "Group": "members: IndexMap<RcStr, SubscriptionOptions>",
    "Stored": "topic: Rc<TopicName>, payload: RcStr, qos: u8, publisher: RcStr, deadline: "
    "Option<u64>",
    "Due": "deadline: u64, topic: Rc<TopicName>",
    "Delivery": "client: RcStr, topic: Rc<TopicName>, payload: RcStr, qos: u8, retain: bool, "
    "expiry: Option<u32>, ids: Vec<u32>, group: Option<(RcStr, Rc<TopicFilter>)>",
    "TopicName": "text: String",
}

UNREAD = re.compile(
    r"""//[^\n]*|r(\#*)"[\s\S]*?"\1|"(?:\\.|[^"\\])*"|'(?:\\[^\n]{1,8}?|[^'\\\n])'""")


def stands_on():
    """Of each crate those that its line in crates.txt names."""
    lines = (TOP / "crates.txt").read_text(encoding="utf-8").splitlines()
    return {line.split(":")[0]: line.split(":")[1].split() for line in lines if ":" in line}


def crates():
    return list(stands_on())


def crates_above(low):
    """The crate, and all that stand on it, whatever is between."""
    above, uses = {low}, stands_on()
    while more := {crate for crate in uses if crate not in above and above & set(uses[crate])}:
        above |= more
    return above


def sources(crate):
    """The files of a crate, with blanks in place of comments, texts and characters."""
    for path in sorted((TOP / "crates" / crate / "src").rglob("*.rt")):
        text = path.read_text(encoding="utf-8")
        yield path.relative_to(TOP), UNREAD.sub(lambda it: re.sub(r"[^\n]", " ", it[0]), text)


# Steps

COUNTING = "mq_tree/src/tree/steps.rt"
# What the file of `Steps` has besides its types: a count is made by these functions, and by no
# derived or other impl.
COUNTS = [
    "derive(Drop)", "impl Trail", "fn start() -> Trail", "fn after(before: Trail) -> Trail",
    "derive(Drop)",
    "impl Model for Walk", "impl Walk", "fn start() -> Walk", "fn tick(&mut self)",
    "impl Drop for Steps", "fn drop(self)",
    "impl Model for Steps", "impl Steps", "fn new() -> Steps", "fn tick(&mut self)",
]


def enclosing(lines, place):
    """The headers around a line: the nearest lines above it that begin further
    and further to the left."""
    indent = len(lines[place]) - len(lines[place].lstrip())
    for line in reversed(lines[:place]):
        begins = len(line) - len(line.lstrip())
        if (line.strip() and begins < indent
                and not line.lstrip().startswith(("ensures", "requires", "where", "{", ")"))):
            indent = begins
            yield line.strip()


def is_apply(path, headers):
    where = " in ".join(re.sub(r"^pub(\([^)]*\))? ", "", header) for header in headers)
    return (path.parts[1] == "mq_router"
            and re.search(r"(^| in )fn apply\(.* in impl Router \{$", where) is not None)


def other_forms(line):
    """Whether `Steps` or `Walk` stands on the line other than lent: as `&mut Steps`, or
    imported by its own name."""
    line = re.sub(r"&mut (Steps|Walk)\b(?!\s*(::|\{))|\b\w+::proofs::Walk::", "", line)
    if (re.match(r"\s*(pub(\([^)]*\))? )?use [\w:{} ,]*;$", line)
            and not re.search(r"\b(Steps|Walk) as\b", line)):
        return False
    return re.search(r"\b(Steps|Walk)\b", line) is not None


def lines_with_steps():
    """Where `Steps` stands in another form outside tests and its own file, in crates that can name
    it: the path, the place of the line, and the lines of the file."""
    for crate in sorted(crates_above("mq_tree") - {TESTS}):
        for path, text in sources(crate):
            lines = text.split("\n")
            if not str(path).endswith(COUNTING):
                yield from ((path, place, lines) for place, line in enumerate(lines)
                            if other_forms(line))


def steps_faults():
    made = 0
    for path, place, lines in lines_with_steps():
        headers = list(enclosing(lines, place))
        is_made = (re.fullmatch(r"\s*let mut steps = Steps::new\(\);", lines[place])
                   and is_apply(path, headers))
        made += bool(is_made)
        if not is_made:
            yield (f"{path}:{place + 1}: Steps may only be lent here, as &mut Steps: "
                   "Router::apply alone makes one")
    if made != 1:
        yield f"Router::apply makes {made} Steps: this rule has to be written anew"


def counting_faults():
    text = (TOP / "crates" / COUNTING).read_text(encoding="utf-8")
    text = UNREAD.sub("", text)
    found = re.findall(
        r"\bderive\([^)]*\)|\bimpl\b[^{]*?(?= \{)|\bfn \w+\([^)]*\)(?: -> [^\n{]*?(?=\n| \{))?",
        text)
    if found != COUNTS:
        yield (f"crates/{COUNTING}: COUNTS has its functions and impls: does another one make a "
               f"count? {found}")


# What a router is made of


def inside(text, start):
    """What stands between the bracket at this place and the one that closes it."""
    depth = 0
    for place in range(start, len(text)):
        depth += (text[place] in "{([<") - (
            text[place] in "})]" or text[place] == ">" and text[place - 1] not in "-=")
        if depth == 0:
            return text[start + 1:place]
    return text[start + 1:]


def pieces(text):
    """The parts of a text between its commas, those in brackets left out."""
    parts, depth = [""], 0
    for place, c in enumerate(text):
        depth += (c in "{([<") - (c in "})]" or c == ">" and text[place - 1] not in "-=")
        if c == "," and depth == 0:
            parts.append("")
        else:
            parts[-1] += c
    return [" ".join(part.split()) for part in parts if part.strip()]


def members(body):
    """The fields of a struct, or the variants of an enum, without attributes,
    visibility and ghost fields."""
    found = [re.sub(r"(#\[[^\]]*\]|\bpub(\([^)]*\))?) ", "", piece) for piece in pieces(body)]
    return [it for it in found if not it.startswith("ghost ")]


def declared():
    """Of each struct, enum and type alias its declarations: a crate, and the members."""
    found = {}
    for crate in ROUTER:
        for _, text in sources(crate):
            for it in re.finditer(
                    r"^[ \t]*(?:pub(?:\([^)]*\))? )?(struct|enum) (\w+)[^{(;]*([{(;])", text, re.M):
                body = "" if it[3] == ";" else inside(text, it.end() - 1)
                found.setdefault(it[2], []).append((crate, members(body)))
            for it in re.finditer(r"^(?:pub(?:\([^)]*\))? )?type (\w+)[^=;]*=([^;]*);", text, re.M):
                found.setdefault(it[1], []).append((crate, [" ".join(it[2].split())]))
    return found


def reached(found):
    """The names that `Router` leads to, by the types of the members."""
    names, left = [], ["Router"]
    while left:
        name = left.pop(0)
        if name in found and name not in names:
            names.append(name)
            for _, parts in found[name]:
                left += re.findall(r"\b[A-Z]\w*", " ".join(parts))
    return names


def struct_faults():
    found, known = declared(), {name: pieces(parts) for name, parts in MADE_OF.items()}
    names = reached(found)
    for name in names:
        if len(found[name]) > 1:
            yield (f"{name} is declared in {' and in '.join(crate for crate, _ in found[name])}: "
                   "one of them needs another name")
        crate, parts = found[name][0]
        if name not in known:
            yield f"{crate}: a router is now made of {name}, too: {', '.join(parts)}"
            continue
        for part in parts:
            if part not in known[name]:
                yield (f"{crate}: {name} has `{part}`, which MADE_OF doesn't have: does a model "
                       "speak of it?")
        for part in known[name]:
            if part not in parts:
                yield f"{crate}: {name} has no `{part}` any more, but MADE_OF has it"
    for name in known:
        if name not in names:
            yield f"MADE_OF has {name}, and a router is not made of it any more"


# What stands in out/

# What the toolchain keeps there: its work, what it builds, and what a program's run wrote.
KEPT = r"rlib|incremental|c|{crate}(_tests)?(\.[\w-]+)*|lib{crate}\.\w+|std(in|out|err)(\.[\w-]+)*"


def link_faults():
    """The toolchain stops at a link, wherever it stands."""
    for folder, folders, files in os.walk(TOP):
        folders[:] = [name for name in folders if name != ".git"]
        for path in (pathlib.Path(folder, name) for name in [*folders, *files]):
            if path.is_symlink():
                yield f"{path.relative_to(TOP)} is a link, at which `rt ci` stops"


def out_faults():
    for path in sorted((TOP / "crates").glob("*/out/*")):
        crate = path.parts[-3]
        if not path.is_symlink() and not re.fullmatch(KEPT.replace("{crate}", crate), path.name):
            yield (f"{path.relative_to(TOP)} is not the toolchain's: out/ is no place for files of "
                   "ours")


def main():
    faults = [*steps_faults(), *counting_faults(), *struct_faults(), *out_faults(),
              *link_faults()]
    sums = f"{len(MADE_OF)} structs and enums of a router, {len(faults)} faults"
    return status_of("sources", faults, sums)


sys.exit(main())
