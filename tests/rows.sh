#!/usr/bin/env bash
# Runs the built program on each worked row of tests/rows, on each case of conformance/ and on each example, as a user
# would, and compares what it writes, byte for byte, and its exit status.
#
# A row is NAME.jsonl (standard input), NAME.out (what must be written) and NAME.status; NAME.args, where it stands, has
# the arguments, one a line. An example is a folder of examples/ with a file `run` of lines `OUT STATUS ARGUMENTS..`.
set -uo pipefail
cd "$(dirname "$0")/.."
program=$PWD/bin/mqroute
passed=0
failed=0

check() { # NAME WANTED_OUTPUT WANTED_STATUS, with what was written in $written and the status in $status
    if [ "$status" = "$3" ] && cmp -s "$written" "$2"; then
        passed=$((passed + 1))
    else
        failed=$((failed + 1))
        echo "rows: $1: wanted status $3, got $status; output:"
        cmp "$written" "$2"
    fi
}

dev/hostile_scripts.py --check || exit 1
dev/worked_scripts.py --check || exit 1
dev/three_hundred.py --check || exit 1
dev/plain_router.py --check || exit 1
if [ ! -x "$program" ]; then
    echo "rows: there is no $program: run 'make' first"
    exit 1
fi
written=$(mktemp)
shown=$(mktemp)
kept=$(mktemp)
trap 'rm -f "$written" "$shown" "$kept"' EXIT

for script in tests/rows/*.jsonl; do
    [ -e "$script" ] || continue
    row=${script%.jsonl}
    args=()
    [ -e "$row.args" ] && mapfile -t args < "$row.args"
    "$program" ${args[@]+"${args[@]}"} < "$script" > "$written" 2> /dev/null
    status=$?
    check "$row" "$row.out" "$(cat "$row.status")"
done

for script in conformance/*/*.jsonl; do
    [ -e "$script" ] || continue
    case=${script%.jsonl}
    wanted=0
    grep -q '"refused"' "$case.out" && wanted=1
    "$program" "$script" > "$written" 2> /dev/null
    status=$?
    check "$case" "$case.out" "$wanted"
done

# A script of one byte more than 4,294,967,296 is cut, whatever its lines are.
head -c 4294967297 /dev/zero | "$program" > "$written" 2> "$shown"
status=$?
cat "$shown" >> "$written"
echo "mqroute: script too long" > "$shown"
check "a script that is too long" "$shown" 3

# What ends the program before its script does is shown by one line on standard error.
complaint() { # NAME TEXT STATUS, with what was shown in $written and the status in $status
    echo "mqroute: $2" > "$shown"
    check "$1" "$shown" "$3"
}

# The same, where nothing is to stand on standard output.
lone_complaint() { # NAME TEXT STATUS ARGUMENTS..
    "$program" "${@:4}" < /dev/null > "$written" 2> "$kept"
    status=$?
    check "$1: standard output" /dev/null "$3"
    cp "$kept" "$written"
    complaint "$1" "$2" "$3"
}

lone_complaint "an argument that is not UTF-8" "an argument is not UTF-8" 2 $'\xff.jsonl'
lone_complaint "a script that is not there" "cannot open script nowhere" 2 nowhere

"$program" < tests/rows/first-look.jsonl > /dev/full 2> "$written"
status=$?
complaint "a full device" "write fault" 3

# Each client takes memory: 200,000 don't fit into an address space of 8 MB.
seq -f '{"do":"connect","client":"%.0f"}' 200000 | (ulimit -v 8000 && exec "$program") 2> "$written" > /dev/null
status=$?
complaint "an address space that is too small" "out of memory" 3

# Where that can't be shown either, the status is the same.
"$program" nowhere > "$written" 2> /dev/full
status=$?
check "a full device for what is shown" /dev/null 2

for list in examples/*/run; do
    [ -e "$list" ] || continue
    folder=${list%/run}
    while read -r out wanted rest; do
        read -ra args <<< "$rest"
        (cd "$folder" && "$program" "${args[@]}" < /dev/null > "$written" 2> /dev/null)
        status=$?
        check "$folder $rest" "$folder/$out" "$wanted"
    done < "$list"
done

for wanted in examples/*/lost.diff; do
    [ -e "$wanted" ] || continue
    diff "${wanted%lost.diff}current.out" "${wanted%lost.diff}proposed.out" > "$written"
    status=$?
    check "$wanted" "$wanted" 1
done

echo "$passed passed, $failed failed"
[ "$failed" = 0 ] && [ "$passed" != 0 ]
