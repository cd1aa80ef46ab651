#!/bin/sh
# Lines a second and peak memory of the tools that read files, on a log made of the recorded ones:
# bench/tools.sh [MEGABYTES [FOLDER]] (500, and a temporary folder). Prints a table for bench/README.md, with two of them at work
# at a time; takes some ten minutes.
# Two more run on a plant's day. replay.py and search.py wait for a broker, and have no lines a second of their own.
set -eu
cd "$(dirname "$0")/.."
megabytes=${1:-500}
program=$PWD/bin/mqroute tools=$PWD/tools lists=$PWD/brokers/recorded
[ -x "$program" ] || { echo "tools: there is no $program: run 'make' first" >&2; exit 1; }
work=${2:-}
if [ -z "$work" ]; then
    work=$(mktemp -d)
    trap 'rm -rf "$work"' EXIT
fi

# A line of the table: how fast a command reads a file, and its peak memory.
measured() { # NAME READ WRITTEN COMMAND..
    python3 - "$@" <<'END'
import resource, subprocess, sys, time
name, read, written, *command = sys.argv[1:]
lines = sum(1 for _ in open(read, "rb"))
began = time.monotonic()
with open(written, "wb") as out, open(written + ".shown", "wb") as shown:
    status = subprocess.run(command, stdout=out, stderr=shown).returncode
seconds = time.monotonic() - began
if status > 1:
    sys.exit(f"{name}: status {status}: {open(written + '.shown').read()[:500]}")
peak = resource.getrusage(resource.RUSAGE_CHILDREN).ru_maxrss / 1024
print(f"| `{name}` | {lines:,} | {seconds:,.0f} | {lines / seconds:,.0f} | {peak:,.0f} |", flush=True)
END
}

# The three logs in turn, each begun after the one before, until there are enough.
python3 - "$megabytes" "$work/log" <<'END'
import re, sys
most, name = int(sys.argv[1]) * 1_000_000, sys.argv[2]
logs = [open(f"brokers/recorded/{kind}.log", "rb").read() for kind in ("plain", "sessions", "mixed")]
stamp = re.compile(rb"(?m)^(\d+): ")
spans = [[int(found) for found in stamp.findall(log)] for log in logs]
with open(name, "wb") as out:
    now = 1_700_000_000
    while out.tell() < most:
        for log, times in zip(logs, spans):
            shift = now - times[0]
            out.write(stamp.sub(lambda found: b"%d: " % (int(found[1]) + shift), log))
            now += times[-1] - times[0] + 60
END
echo "| Tool | lines read | seconds | lines a second | peak memory in MB |"
echo "|---|---|---|---|---|"
measured "log_to_script.py --no-inference" "$work/log" "$work/script-alone" "$tools/log_to_script.py" --no-inference "$work/log" &
measured log_to_script.py "$work/log" "$work/script" "$tools/log_to_script.py" "$work/log"
wait
"$program" --acl-file "$lists/proposed.acl" "$work/script" > "$work/after" || [ $? -eq 1 ] &
"$program" --acl-file "$lists/plain.acl" "$work/script" > "$work/before" || [ $? -eq 1 ]
wait
measured compare_log.py "$work/log" "$work/differences" "$tools/compare_log.py" "$work/log" "$work/before" &
measured check.py "$work/script" "$work/faults" "$tools/check.py" "$work/script"
measured who_loses.py "$work/before" "$work/lost" "$tools/who_loses.py" "$work/script" "$work/before" "$work/after"
measured "who_loses.py --by user" "$work/before" "$work/lost-by-user" "$tools/who_loses.py" --by user "$work/script" "$work/before" "$work/after"
wait

# A plant's day of 15,000 lines, 233,083 copies, on which 20 clients are sent all: these two run mqroute themselves.
for board in $(seq 20); do
    printf '{"do":"connect","client":"board-%s"}\n{"do":"subscribe","client":"board-%s","filter":"#"}\n' "$board" "$board"
done > "$work/day"
bench/plant.py day 300 10 11460 >> "$work/day"
measured "why.py" "$work/day" "$work/why" "$tools/why.py" "$work/day" 15000
bench/plant.py list 10 > "$work/day.acl"
echo 'plant/+building/# -> site/+building/#' > "$work/plan"
"$tools/plan.py" acl "$work/plan" "$work/day.acl" > "$work/new.acl" || [ $? -eq 1 ]
measured "preview.py --plan" "$work/day" "$work/preview" "$tools/preview.py" --rules own --plan "$work/plan" "$work/day.acl" "$work/new.acl" "$work/day"
