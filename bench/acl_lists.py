"""Access lists that the bench asks questions of: as operators have them, long ones, and some that
are made to be hard."""
import pathlib
import random

PLANT = pathlib.Path(__file__).resolve().parent.parent / "examples/topic-plan"

List = list[str]
Pair = tuple[List, List]

KINDS = ("temperature", "humidity", "co2", "door", "light", "energy", "motion", "valve")
HALLS = 97


def made(lines: int, users: int) -> List:
    """Each user's lines grant it machines of its own."""
    rows, machine = ["topic read $SYS/#"], 0
    for user in range(users):
        rows.append(f"user u{user}")
        for access in range(lines // users - 1):
            machine += 1
            rows.append(f"topic {('read', 'write', 'readwrite')[access % 3]} "
                        f"plant/hall-{machine % HALLS}/m{machine}/#")
    return rows


def building_filter(chosen: random.Random) -> str:
    """A sensor of a building, or many of them."""
    levels = [f"building-{chosen.randrange(20)}", f"floor-{chosen.randrange(10)}",
              f"room-{chosen.randrange(20)}", chosen.choice(KINDS)]
    part = chosen.random()
    if part < 0.3:
        levels[chosen.randrange(1, 4)] = "+"
    elif part < 0.4:
        levels[2:] = ["#"]
    elif part < 0.45:
        levels[:3] = ["+", "+", "+"]
    return "/".join(levels)


def building(users: int, service_lines: int = 0) -> List:
    """Three patterns, some lines for clients without a user name, ten for each user, and perhaps a
    service user with many."""
    chosen = random.Random(1)
    rows = ["topic read news/#", "topic read $SYS/broker/uptime", "topic read public/+/state",
            "pattern readwrite clients/%c/#", "pattern read users/%u/#",
            "pattern read config/+/%c"]
    for user in range(users):
        rows.append(f"user user-{user}")
        for line in range(10):
            access = chosen.choice(("read", "write", "readwrite", "deny")) if line else "readwrite"
            rows.append(f"topic {access} {building_filter(chosen)}")
    if service_lines:
        rows.append("user service")
        rows += [f"topic {chosen.choice(('read', 'write', 'readwrite'))} {building_filter(chosen)}"
                 for _ in range(service_lines)]
    return rows


def changed(rows: List) -> Pair:
    """The list, and the same with another line in its middle."""
    new = list(rows)
    new[len(new) // 2] = "topic read other/+/state"
    return rows, new


def areas(count: int) -> List:
    return [f"topic readwrite area/{area}/+" for area in range(count)]


def of_users(word: str, users: int, lines: int) -> List:
    """So many lines for each user, of areas of its own."""
    rows = []
    for user in range(users):
        rows.append(f"user user-{user}")
        rows += [f"topic readwrite {word}/{user}/{line}/+" for line in range(lines)]
    return rows


def reversed_pair(rows: List) -> Pair:
    """The list, and the same lines in reverse."""
    return rows, rows[::-1]


def denies_below(count: int) -> List:
    """`#`, and denies of `a/#`, `+/a/#`, `+/+/a/#` and so on: a name has to avoid each of them."""
    return ["topic readwrite #"] + ["topic deny " + "+/" * depth + "a/#" for depth in range(count)]


def grants_below(count: int) -> List:
    return ["topic readwrite " + "+/" * depth + "a/#" for depth in range(count)]


def one_named(count: int, levels: int, name: str = "w") -> List:
    """Each line names one level of its filter, the others are `+`."""
    return ["topic readwrite " + "/".join(f"{name}{line}" if level == line % levels else "+"
                                          for level in range(levels)) for line in range(count)]


def plan() -> List:
    """100 rules of a plan: halls go below a site, lines get a level more, and two keep a client's
    own level."""
    rules = [f"plant/hall-{hall}/+machine/{kind} -> site/a/h{hall}/+machine/meters/{kind}"
             for hall in range(10) for kind in KINDS]
    rules += [f"line{line}/+a/+b/# -> site/b/l{line}/+a/x/+b/#" for line in range(18)]
    return [*rules, "cmd/+client/# -> site/cmd/+client/#", "status/+client -> site/status/+client"]


def replanned_line(chosen: random.Random) -> tuple[str, str]:
    """What one filter becomes by the plan."""
    hall, line = chosen.randrange(10), chosen.randrange(18)
    kind, machine = chosen.choice(KINDS), chosen.randrange(9)
    return chosen.choice([
        (f"plant/hall-{hall}/+/{kind}", f"site/a/h{hall}/+/meters/{kind}"),
        (f"plant/hall-{hall}/m{machine}/{kind}", f"site/a/h{hall}/m{machine}/meters/{kind}"),
        (f"line{line}/#", f"site/b/l{line}/#"),
        (f"cmd/dev{machine}/#", f"site/cmd/dev{machine}/#")])


def replanned(users: int) -> Pair:
    """Ten lines for each user, by old names and by those of the plan."""
    chosen = random.Random(1)
    old = ["pattern read cmd/%c/#", "pattern write status/%c"]
    new = ["pattern read site/cmd/%c/#", "pattern write site/status/%c"]
    for user in range(users):
        old.append(f"user u{user}")
        new.append(f"user u{user}")
        for _ in range(10):
            access = chosen.choice(["read", "write", "readwrite", "deny"])
            before, after = replanned_line(chosen)
            old.append(f"topic {access} {before}")
            new.append(f"topic {access} {after}")
    return old, new


def lines_of(name: str) -> List:
    return (PLANT / name).read_text(encoding="utf-8").splitlines()


def plant() -> Pair:
    """The list of a plant of 29 rules and 20 users, and the one by its new names."""
    return lines_of("current.acl"), lines_of("by-hand.acl")


def plant_plan() -> List:
    return lines_of("plan")
