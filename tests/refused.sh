#!/usr/bin/env bash
# Refuses each growth in turn, by a preloaded malloc (tests/refused.c): the nth growth fails, for each n, until none is
# met. First in the calls that tests of mq_tests make, without a script and over each worked row; then in both built
# programs, over some command lines. '-v' shows how many growths were refused in each trial.
set -uo pipefail
cd "$(dirname "$0")/.."
tests=$PWD/crates/mq_tests/out/mq_tests_tests
program=$PWD/bin/mqroute
acl=$PWD/bin/mqroute-acl
verbose=${1-}
passed=0
failed=0

say() { # WHETHER_RIGHT TEXT
    if [ "$1" = 0 ]; then
        passed=$((passed + 1))
    else
        failed=$((failed + 1))
        echo "refused: $2"
    fi
}

for built in "$tests" "$program" "$acl"; do
    if [ ! -x "$built" ]; then
        echo "refused: there is no $built: run 'rt ci', and then 'make programs'"
        exit 1
    fi
done
work=$(mktemp -d)
trap 'rm -rf "$work"' EXIT
kit=$(dirname "$(dirname "$(readlink -f "$(command -v rt)")")")
"$kit/toolchain/bin/clang" -O2 -shared -fPIC -nostdlib -fuse-ld=lld -o "$work/refused.so" tests/refused.c || exit 1

# A line for each trial: its call, what it is about, and how many growths were refused. Where one goes wrong, its call
# stands last, and what is wrong with it.
try_calls() { # NAME TEST ARGUMENTS..
    local name=$1
    shift
    LD_PRELOAD=$work/refused.so "$tests" "tests::refused::$1" "${@:2}" > "$work/shown" 2>&1
    local status=$?
    [ "$verbose" = -v ] && sed "s|^|$name: |" "$work/shown"
    cat "$work/shown" >> "$work/all"
    say "$status" "$name: status $status; $(tail -n 3 "$work/shown" | paste -s -d ';')"
}

try_calls calls growths_of_calls
for script in tests/rows/*.jsonl; do
    # Each command is tried over the whole script: one of a thousand lines would take minutes.
    [ "$(wc -l < "$script")" -lt 100 ] || continue
    row=${script%.jsonl}
    args=()
    [ -e "$row.args" ] && mapfile -t args < "$row.args"
    try_calls "$row" growths_of_a_row "$row.out" ${args[@]+"${args[@]}"} "$script"
done

# Each kind of call met a refusal somewhere, so that none is tried in unreached.
for call in TopicName::parse TopicName::clone TopicFilter::parse TopicFilter::clone SubFilter::parse SubFilter::clone \
    Acl::read read_acl read_line arguments put for_name for_filter apply print run; do
    grep -aEq "^$call .*: [1-9][0-9]*$" "$work/all"
    say $? "$call: nothing was refused"
done

# What was written is all that is wanted, or a front of it that ends at a line's end.
is_front() {
    cmp -s -n "$(wc -c < "$work/out")" "$work/out" "$work/wanted" && [ -z "$(tail -c 1 "$work/out")" ]
}

# Whether the program says that memory ran out, wherever that was.
is_shown() { # PROGRAM STATUS
    [ "$2" = 3 ] && [ "$(cat "$work/err")" = "${1##*/}: out of memory" ]
}

# Where a growth of the program is refused, it says so, or does without and all is as it should be.
try_program() { # PROGRAM INPUT ARGUMENTS..
    local program=$1 input=$2 nth=0 wrong= wanted status
    shift 2
    "$program" "$@" < "$input" > "$work/wanted" 2> "$work/wanted_err"
    wanted=$?
    while [ "$nth" -lt 10000 ]; do
        nth=$((nth + 1))
        rm -f "$work/met"
        MQ_REFUSE=$nth MQ_REFUSED=$work/met LD_PRELOAD=$work/refused.so \
            "$program" "$@" < "$input" > "$work/out" 2> "$work/err"
        status=$?
        if [ "$status" = "$wanted" ] && cmp -s "$work/out" "$work/wanted" && cmp -s "$work/err" "$work/wanted_err"; then
            [ -e "$work/met" ] || break
        elif [ ! -e "$work/met" ] || ! is_shown "$program" "$status" || ! is_front; then
            wrong="$wrong $nth"
        fi
    done
    echo "${program##*/} $* < $input: $((nth - 1))" >> "$work/all"
    [ "$verbose" = -v ] && tail -n 1 "$work/all"
    [ -z "$wrong" ] && [ "$nth" -gt 1 ] && [ "$nth" -lt 10000 ]
    say $? "${program##*/} $* < $input: wrong where one of these growths is refused:$wrong"
}

try_program "$program" tests/rows/first-look.jsonl
try_program "$program" /dev/null --acl-file tests/rows/access-list-file.acl tests/rows/first-look.jsonl
try_program "$program" /dev/null --help
try_program "$program" /dev/null --unknown
try_program "$program" /dev/null nowhere.jsonl

lists=tests/acl
try_program "$acl" /dev/null compare "$lists/own.acl" "$lists/owned.acl"
try_program "$acl" /dev/null compare --json "$lists/own.acl" "$lists/one.acl"
try_program "$acl" /dev/null compare --rules own --plan "$lists/moved.plan" "$lists/moved-old.acl" "$lists/moved-new.acl"
try_program "$acl" /dev/null why "$lists/valid.acl" d1 hall/safe/set --user ann
try_program "$acl" /dev/null lint "$lists/needless.acl"
try_program "$acl" /dev/null reach "$lists/one.acl" d1 a/+ --user ann
try_program "$acl" /dev/null reach "$lists/one.acl" --script "$lists/day.jsonl"
try_program "$acl" /dev/null compare "$lists/own.acl" nowhere.acl
try_program "$acl" /dev/null --help
try_program "$acl" /dev/null melt

# How many growths the program meets in a script of these lines.
growths() { # LINE..
    local nth=0
    printf '%s\n' "$@" > "$work/script"
    while [ "$nth" -lt 10000 ]; do
        rm -f "$work/met"
        MQ_REFUSE=$((nth + 1)) MQ_REFUSED=$work/met LD_PRELOAD=$work/refused.so \
            "$program" < "$work/script" > /dev/null 2>&1
        [ -e "$work/met" ] || break
        nth=$((nth + 1))
    done
    echo "$nth"
}

# How many it meets at a line behind others. Among these are lines like it, so that nothing grows that is there for all.
before=(
    '{"do":"connect","client":"a"}'
    '{"do":"connect","client":"b"}'
    '{"do":"disconnect","client":"b"}'
    '{"do":"disconnect","client":"b"}'
    '{"do":"subscribe","client":"a","filter":"a/b"}'
    '{"do":"subscribe","client":"a","filter":"$share/g/a/b/c"}'
    '{"do":"unsubscribe","client":"b","filter":"$share/g/a/b/c"}'
    '{"do":"unsubscribe","client":"a","filter":"$share/g/a/b/d"}'
)
growths_before=$(growths "${before[@]}")
growths_at() { # LINE
    echo $(($(growths "${before[@]}" "$1") - growths_before))
}

# An unsubscribe takes no memory. What its line and the print of its answer take is that of a disconnect, and one field more:
# the same field stands in a line that is refused before its filter is looked at.
left=$(growths_at '{"do":"disconnect","client":"a"}')
not_left=$(growths_at '{"do":"disconnect","client":"b"}')
for filter in a/b '$sharex/g' '$share/g/a/b/c'; do
    taken=$(growths_at "{\"do\":\"unsubscribe\",\"client\":\"a\",\"filter\":\"$filter\"}")
    not_taken=$(growths_at "{\"do\":\"unsubscribe\",\"client\":\"b\",\"filter\":\"$filter\"}")
    field=$((not_taken - not_left))
    beside=$((taken - left - field))
    [ "$left" -gt 0 ] && [ "$field" -gt 0 ] && [ "$beside" = 0 ]
    say $? "unsubscribe from $filter: it takes memory $beside times beside its line and its answer"
done

sed -n 's/.*: \([0-9]*\)$/\1/p' "$work/all" | awk '{ sum += $1 } END { print NR " trials, " sum " growths refused" }'
echo "$passed passed, $failed failed"
[ "$failed" = 0 ] && [ "$passed" != 0 ]
