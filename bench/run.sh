#!/usr/bin/env bash
# Measures the program that `rt ci` or `rt run` left (bench/README.md).
set -euo pipefail
cd "$(dirname "$0")/.."
program=bin/mqroute
[ -x "$program" ] || { echo "there is no $program: run 'make' first"; exit 1; }
scratch=$(mktemp -d)
trap 'rm -rf "$scratch"' EXIT
TIMEFORMAT=%U

# The same job in ordinary Rust.
yardstick=$(bench/yardstick.sh "$scratch") || echo "The program alone is measured."
[ -z "$yardstick" ] || bench/same.sh "$yardstick"

seconds() { # PROGRAM SCRIPT ARGUMENTS..: user seconds
    local program=$1 script=$2
    shift 2
    { time "$program" "$@" < "$script" > /dev/null; } 2>&1 || true
}

# The programs run in turns, since a machine's speed may change from minute to minute.
rounds() { # SCRIPT ARGUMENTS..: user seconds of the program, and of the yardstick if it is there, five times
    for _ in 1 2 3 4 5; do
        echo "$(seconds "$program" "$@") ${yardstick:+$(seconds "$yardstick" "$@")}"
    done
}

# A program that waits for more of its script, on $feed. What the kernel shows of it then is its own: what a parent is shown
# of a child begins with the parent's memory.
begin() { # PROGRAM ARGUMENTS..
    mkfifo "$scratch/pipe"
    "$@" < "$scratch/pipe" > /dev/null &
    pid=$!
    exec {feed}> "$scratch/pipe"
}

finish() {
    exec {feed}>&-
    wait "$pid" || true
    rm "$scratch/pipe"
}

give() { # SCRIPT: returns when the program has worked it off
    local now last=none
    cat "$1" >&"$feed"
    while now=$(ticks) && [ "$now" != "$last" ]; do
        last=$now
        sleep 0.3
    done
}

ticks() { # user time so far
    awk '{ print $14 }' "/proc/$pid/stat"
}

peak() { # PROGRAM SCRIPT ARGUMENTS..: peak memory in KB
    local program=$1 script=$2
    shift 2
    begin "$program" "$@"
    give "$script"
    awk '/VmHWM/ { print $2 }' "/proc/$pid/status"
    finish
}

whole() { # LABEL SCRIPT ARGUMENTS..
    local label=$1
    shift
    rounds "$@" | python3 bench/ratios.py "$label" "$(wc -l < "$1")"
    echo "    peak $(peak "$program" "$@") KB${yardstick:+, of the yardstick $(peak "$yardstick" "$@") KB}"
}

# What one more command costs: the user time of COUNT of them, after a script without.
each() { # LABEL COUNT KIND SIZE
    local start
    python3 bench/scripts.py "$3" "$4" 0 > "$scratch/before"
    python3 bench/scripts.py "$3" "$4" "$2" | tail -n +$(($(wc -l < "$scratch/before") + 1)) > "$scratch/more"
    begin "$program"
    give "$scratch/before"
    start=$(ticks)
    give "$scratch/more"
    echo "$1: $(python3 -c "print(f'{($(ticks) - $start) / $(getconf CLK_TCK) / $2 * 1e6:.1f}')") us each"
    finish
}

python3 bench/scripts.py five > "$scratch/five"
whole "100,000 publishes to 5 subscribers of one filter" "$scratch/five"
python3 bench/scripts.py overlapping 100000 > "$scratch/overlapping"
whole "100,000 publishes to 5 subscribers of three filters with identifiers" "$scratch/overlapping"
python3 bench/scripts.py groups 10 100000 > "$scratch/groups"
whole "100,000 publishes to a group" "$scratch/groups"
python3 bench/scripts.py lasting 100000 10000 > "$scratch/lasting"
whole "100,000 retained topics, 10,000 subscribers, 10,000 advances" "$scratch/lasting"
python3 bench/scripts.py retained 1000 30000 > "$scratch/retained"
whole "30,000 subscribes that are sent 10 of 1,000 retained messages each" "$scratch/retained"
python3 bench/scripts.py resuming 1000 1000 > "$scratch/resuming"
whole "1,000 clients for which 1,000 copies wait, and that come back" "$scratch/resuming"
python3 bench/scripts.py big 20000000 > "$scratch/small"
whole "a script of 20 MB" "$scratch/small"
python3 bench/scripts.py big 200000000 > "$scratch/big"
whole "a script of 200 MB" "$scratch/big"
python3 bench/scripts.py list 10000 > "$scratch/list"
python3 bench/scripts.py rules 10000 1000 > "$scratch/rules"
whole "1,000 publishes under an access list of 10,000 lines" "$scratch/rules" --acl-file "$scratch/list"
python3 bench/scripts.py userlist 10000 > "$scratch/list"
python3 bench/scripts.py users 1000 > "$scratch/users"
whole "1,000 publishes to 5 subscribers under an access list of 10,000 users, ten lines each" "$scratch/users" --acl-file "$scratch/list"
python3 bench/plant.py list 100 > "$scratch/list"
python3 bench/plant.py day 1000 100 20000 > "$scratch/day"
whole "a plant's day: 1,000 clients, 100,000 subscriptions, 20,000 publishes" "$scratch/day" --acl-file "$scratch/list"

if command -v valgrind > /dev/null; then
    python3 bench/instructions.py "$program" ${yardstick:+"$yardstick"}
else
    echo "Instructions are counted where there is Debian's package valgrind."
fi
python3 bench/growth.py 100000 "$program" ${yardstick:+"$yardstick"}
python3 bench/curves.py "$program" ${yardstick:+"$yardstick"}

for topics in 1000 100000; do
    each "a subscribe that is sent 10 of $topics retained messages" 100000 retained "$topics"
    each "an advance that ends 10 retained messages beside $topics others" 10000 expiring "$topics"
done
for away in 10 1000; do
    each "the return of one of $away clients for which 1,000 copies wait" 10 resuming "$away"
done
for filters in 10000 100000; do
    each "leaving one of a client's $filters filters" "$filters" leaving "$filters"
done
