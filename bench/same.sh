#!/usr/bin/env bash
# Compares what the built program and the yardstick write, byte for byte, and their statuses, on the worked rows, the
# examples, and the scripts that are measured: same.sh [YARDSTICK]
set -euo pipefail
cd "$(dirname "$0")/.."
program=$PWD/bin/mqroute
[ -x "$program" ] || { echo "there is no $program: run 'make' first"; exit 1; }
scratch=$(mktemp -d)
trap 'rm -rf "$scratch"' EXIT
yardstick=${1:-$(bench/yardstick.sh "$scratch")}
same=0
different=0

compare() { # LABEL SCRIPT ARGUMENTS..
    local label=$1 script=$2 status=0 other=0
    shift 2
    "$program" "$@" < "$script" > "$scratch/own" || status=$?
    "$yardstick" "$@" < "$script" > "$scratch/other" || other=$?
    if [ "$status" = "$other" ] && cmp "$scratch/own" "$scratch/other"; then
        same=$((same + 1))
    else
        different=$((different + 1))
        echo "$label: mqroute ends with $status, the yardstick with $other"
    fi
}

for script in tests/rows/*.jsonl; do
    # The yardstick has our own rules of access lists alone.
    ! grep -qs -e --rules "${script%.jsonl}.args" || continue
    args=()
    [ -e "${script%.jsonl}.args" ] && mapfile -t args < "${script%.jsonl}.args"
    compare "$script" "$script" ${args[@]+"${args[@]}"}
done

for list in examples/*/run; do
    cd "${list%/run}"
    while read -r _ _ rest; do
        read -ra args <<< "$rest"
        compare "$list $rest" "${args[-1]}" "${args[@]:0:${#args[@]}-1}"
    done < run
    cd - > /dev/null
done

# An array isn't taken for the fields in their order, nor a name that stands twice for a fault.
printf '%s\n' '["connect","a"]' '{"do":"connect","client":"b","client":"a"}' '{"do":"disconnect","client":"a","rap":null}' \
    '{"do":{"stat":null}}' ' {"do":"stat","do":"stats"}' '{"do":"stat"}x' '{"do":"advance","seconds":1.0}' \
    '{"do":"advance","seconds":1e400}' '{"do":"advance","seconds":18446744073709551616}' > "$scratch/odd"
compare "odd lines" "$scratch/odd"

large() { # KIND NUMBERS..
    python3 bench/scripts.py "$@" > "$scratch/script"
    compare "scripts.py $*" "$scratch/script"
}

large five
large big 2000000
large others 1000 10000
large overlapping 10000
large groups 100 10000
large leaving 1000 1000
large retained 1000 3000
large expiring 1000 11000
large lasting 10000 1000
large sessions 1000 10000
large resuming 100 100
large returning 1000 3
large refused 1000
large receivers 1000 100
large members 1000 0 1100
large members 1000 999 100
large all 1000 3
python3 bench/scripts.py list 10000 > "$scratch/list"
python3 bench/scripts.py rules 10000 1000 > "$scratch/script"
compare "scripts.py rules" "$scratch/script" --acl-file "$scratch/list"
python3 bench/scripts.py userlist 100 > "$scratch/list"
python3 bench/scripts.py users 1000 > "$scratch/script"
compare "scripts.py users" "$scratch/script" --acl-file "$scratch/list"
python3 bench/plant.py list 100 > "$scratch/list"
python3 bench/plant.py day 1000 100 10000 > "$scratch/script"
compare "plant.py day" "$scratch/script" --acl-file "$scratch/list"
echo "the yardstick writes what mqroute does: $same scripts the same, $different different"
[ "$different" = 0 ]
