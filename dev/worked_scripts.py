#!/usr/bin/env python3
"""Writes crates/mq_world/proofs/WorkedScripts.antt: the worked rows of tests/rows as equations over
the definitions.

Each row's commands are put to the definitions (refusal, answer, next) from the world that nobody
has used, and must give what the row's file .out says; for some lines the counted steps are computed
too. The checker computes both sides, so this is a test of the definitions by the rows, with no code
of the router in between. Run from the repository's top, whenever a row joins:
dev/worked_scripts.py; with the argument --check it writes nothing and fails where the equations are
out of date.
"""
import json
import pathlib
import sys

ROWS = pathlib.Path("tests/rows")
OUT = pathlib.Path("crates/mq_world/proofs/WorkedScripts.antt")
LINE_FAULTS = {"LineTooLong", "BadJson", "BadCommand", "BadField"}

# Thousands of commands and copies: they compute too, but would make the file several times as long.
LEFT_OUT = {"thousand-waiting", "three-hundred"}

# The counted steps of lines: row, line, steps.
STEPS = {
    "overlapping-identifiers": {5: 4},
    "retained-order": {7: 5},
    "order-of-groups": {6: 3},
    "message-expiry": {4: 1, 5: 0, 7: 1, 8: 0},
    "retain-handling": {5: 1, 6: 0},
    "refusals": {3: 0},
    "clock-limit": {2: 0},
}

# What mosquitto refuses by itself.
REFUSED = "begins_own begins_shared is_refused state_filter"

HEADER = """\
-- The worked rows of tests/rows, computed from the definitions alone. \
Made by dev/worked_scripts.py.
use Rattle.std.specs.Prelude.{◌≡◌, ℕ, Bool, true, false, List, [], ◌∷◌, map, Option, Some, None, \
is_some, Result, Ok, Err, codes, slice_index_or, if◌then◌else◌}
use Rattle.std.proofs.Common.{refl}
use Rattle.std.specs.Option.{option_map_or}
use Rattle.mq_acl.specs.AccessLists.{allowed}
use Rattle.mq_acl.specs.Refused.{begins_own, begins_shared, is_refused, state_filter}
use Rattle.mq_acl.specs.declared.rules.Rules.TheVariants.{Mosquitto}
use Rattle.mq_world.specs.Lists.{Text, with_row}
use Rattle.mq_world.specs.World.{World, Request, Connect, Disconnect, Subscribe, Unsubscribe, \
Publish, SetAcl, Advance, Stat, Group, Copy, Reply, fresh_world, empty_world, \
ruled, within}
use Rattle.mq_world.specs.Refusals.{refusal}
use Rattle.mq_world.specs.Copies.{unshared_copies}
use Rattle.mq_world.specs.Groups.{groups_of, served_rows}
use Rattle.mq_world.specs.Retained.{retained_after, retained_copies}
use Rattle.mq_world.specs.Waiting.{resumed_copies, begins_to_wait}
use Rattle.mq_world.specs.Counts.{filters_of, counts, steps}
use Rattle.mq_world.specs.Answers.{answer}
use Rattle.mq_world.specs.After.{after, next}
use Rattle.mq_world.specs.declared.refusal.Refusal.{Refusal}
use Rattle.mq_world.specs.declared.refusal.Refusal.TheVariants.{ClientId, UserName, NotConnected, \
TopicName, TopicFilter, SharedNoLocal, NotAuthorized, RetainedFull, AclLine, ClockTooFar}
use Rattle.mq_world.specs.declared.answer.Outcome.TheVariants.{Reason, Counts}

-- what each command is answered
abbrev answers : World → List Request → List (Result Reply Refusal)
answers w [] = []
answers w (request ∷ requests) =
    option_map_or (λ r. Err r) (refusal w request) (Ok (answer w request)) ∷ answers (next w \
request) requests

-- the steps that each command counts: none where it is refused
abbrev counted : World → List Request → List ℕ
counted w [] = []
counted w (request ∷ requests) =
    (if is_some (refusal w request) then 0 else steps w request) ∷ counted (next w request) requests

-- those of the commands at these places
abbrev counted_at : List ℕ → World → List Request → List ℕ
counted_at places w requests = map (λ i. slice_index_or (counted w requests) i 0) places

abbrev ok : List Copy → ℕ → Result Reply Refusal
ok copies n = Ok (record { copies = copies; outcome = Reason n })

abbrev counted_reply : ℕ → ℕ → ℕ → Result Reply Refusal
counted_reply nodes retained subscriptions = Ok (record { copies = []; \
outcome = Counts nodes retained subscriptions })

abbrev connect : Text → Option Text → Request
connect client user = Connect client user true 0

abbrev publish : Text → Text → Text → ℕ → Bool → Option ℕ → Request
publish client topic payload qos retain expiry =
    Publish (record { publisher = client; topic = topic; payload = payload; qos = qos; \
retain = retain; expiry = expiry })

abbrev message : Text → Text → Text → ℕ → Request
message client topic payload qos = publish client topic payload qos false None

abbrev subscribe : Text → Text → ℕ → Request
subscribe client text qos =
    Subscribe client text (record { qos = qos; no_local = false; retain_as_published = false; \
handling = 0; identifier = None })

abbrev group : Text → Text → Option Group
group share filter = Some (record { share = share; filter = filter })
"""


def text(s):
    data = s.encode()
    if not data:
        return "[]"
    if all(32 <= b < 127 and chr(b) not in '"\\' for b in data):
        return f'(codes "{s}")'
    return "(" + " ∷ ".join(str(b) for b in data) + " ∷ [])"


def maybe(value, show):
    return "None" if value is None else f"(Some {show(value)})"


def flag(b):
    return "true" if b else "false"


def listed(items):
    return "(" + " ∷ ".join(items + ["[]"]) + ")" if items else "[]"


def request(c):
    do = c["do"]
    if do == "connect":
        start = f"{text(c['client'])} {maybe(c.get('user'), text)}"
        if set(c) <= {"do", "client", "user"}:
            return f"connect {start}"
        return f"Connect {start} {flag(c.get('clean', True))} {c.get('session_expiry', 0)}"
    if do == "disconnect":
        return f"Disconnect {text(c['client'])}"
    if do == "unsubscribe":
        return f"Unsubscribe {text(c['client'])} {text(c['filter'])}"
    if do == "acl":
        return f"SetAcl {maybe(c.get('text'), text)}"
    if do == "advance":
        return f"Advance {c['seconds']}"
    if do == "stat":
        return "Stat"
    if do == "publish":
        start = (f"{text(c['client'])} {text(c['topic'])} {text(c.get('payload', ''))} "
                 f"{c.get('qos', 0)}")
        if set(c) <= {"do", "client", "topic", "payload", "qos"}:
            return f"message {start}"
        return f"publish {start} {flag(c.get('retain', False))} {maybe(c.get('expiry'), str)}"
    assert do == "subscribe", c
    start = f"{text(c['client'])} {text(c['filter'])}"
    if set(c) <= {"do", "client", "filter", "qos"}:
        return f"subscribe {start} {c.get('qos', 0)}"
    return (f"Subscribe {start} (record {{ qos = {c.get('qos', 0)}; no_local = "
            f"{flag(c.get('no_local', False))}; retain_as_published = {flag(c.get('rap', False))}; "
            f"handling = {c.get('handling', 0)}; identifier = {maybe(c.get('id'), str)} }})")


def copy(c):
    group = f"group {text(c['share'])} {text(c['filter'])}" if "share" in c else "None"
    return (f"record {{ client = {text(c['client'])}; topic = {text(c['topic'])}; payload = "
            f"{text(c['payload'])}; qos = {c['qos']}; retain = {flag(c['retain'])}; expiry = "
            f"{maybe(c.get('expiry'), str)}; identifiers = "
            f"{listed([str(n) for n in c.get('ids', [])])}; group = {group} }}")


def answered(lines):
    last = lines[-1]
    if "refused" in last:
        return (f"Err (AclLine {last['acl_line']})" if last["refused"] == "AclLine"
                else f"Err {last['refused']}")
    if "nodes" in last:
        return f"counted_reply {last['nodes']} {last['retained']} {last['subscriptions']}"
    return f"ok {listed([copy(c) for c in lines[:-1]])} {last['reason']}"


# The world that a script starts in: one with other limits or rules where the row has arguments.
def start_of(path):
    world, args = "empty_world", path.with_suffix(".args")
    words = args.read_text().split() if args.exists() else []
    value = dict(zip(words[::2], words[1::2]))
    if value.keys() & {"--max-retained", "--max-queued"}:
        retained, queued = maybe(value.get("--max-retained"), str), value.get("--max-queued", 1000)
        world = f"(within (record {{ retained = {retained}; queued = {queued} }}) {world})"
    return f"(ruled Mosquitto {world})" if value.get("--rules") == "mosquitto" else world


def row(path):
    outs = {}
    for line in path.with_suffix(".out").read_text().splitlines():
        out = json.loads(line)
        outs.setdefault(out["line"], []).append(out)
    requests, wanted, place = [], [], {}
    for number, line in enumerate(path.read_text().splitlines(), 1):
        if number not in outs or outs[number][-1].get("refused") in LINE_FAULTS:
            continue
        place[number] = len(requests)
        requests.append(request(json.loads(line)))
        wanted.append(answered(outs[number]))
    name = path.stem.replace("-", "_")
    start = start_of(path)
    refused = f"\n    {REFUSED}" if "Mosquitto" in start else ""
    asked = "\n    ∷ ".join([*requests, "[]"])
    script = f"\nabbrev {name}-script : List Request\n{name}-script =\n    {asked}\n"
    given = "\n    ∷ ".join([*wanted, "[])"])
    equation = (
        f"\n{name} : answers {start} {name}-script\n    ≡ ({given}\n"
        "unfolding fresh_world refusal answer after next with_row allowed unshared_copies "
        "groups_of served_rows\n"
        "    retained_after retained_copies resumed_copies begins_to_wait filters_of counts"
        f"{refused}\n{name} = refl\n")
    if path.stem not in STEPS:
        return script + equation
    counts = STEPS[path.stem]
    places = listed([str(place[line]) for line in counts])
    return script + equation + (
        f"\n-- the steps of line{'s'[:len(counts) - 1]} {', '.join(str(line) for line in counts)}\n"
        f"{name}-steps : counted_at {places} {start} {name}-script ≡ "
        f"{listed([str(n) for n in counts.values()])}\n"
        "unfolding fresh_world refusal answer after next with_row allowed groups_of served_rows "
        "retained_after\n"
        f"    filters_of steps\n{name}-steps = refl\n")


# A row that begins with an access list has a twin that sets it.
scripts = [path for path in sorted(ROWS.glob("*.jsonl")) if not path.with_suffix(".acl").exists()
           and path.stem not in LEFT_OUT]
made = HEADER + "".join(row(path) for path in scripts)
if "--check" in sys.argv:
    sys.exit(0 if OUT.read_text() == made
             else f"{OUT} is not what dev/worked_scripts.py makes of {ROWS}")
OUT.write_text(made)
