#!/usr/bin/env bash
# Runs long scripts and long lists through the built programs in a small address space: what they take doesn't grow with
# the script, and little with the list; what mqroute has answered when memory runs out is written.
set -uo pipefail
cd "$(dirname "$0")/.."
program=$PWD/bin/mqroute
acl=$PWD/bin/mqroute-acl
passed=0
failed=0

# KiB of address space: some twice of what the mixed lines take.
room=7200
# For mqroute-acl: so many beside its own file, which is in the address space too. glibc takes memory in pieces of 132 KiB;
# without that the bound is of what the program asks for.
data=6050
export MALLOC_TOP_PAD_=0

say() { # WHETHER_RIGHT TEXT
    if [ "$1" = 0 ]; then
        passed=$((passed + 1))
    else
        failed=$((failed + 1))
        echo "memory: $2"
    fi
}

for built in "$program" "$acl"; do
    if [ ! -x "$built" ]; then
        echo "memory: there is no $built: run 'make' first"
        exit 1
    fi
done
acl_room=$((data + $(stat -c %s "$acl") / 1024))
work=$(mktemp -d)
trap 'rm -rf "$work"' EXIT

# Mixed lines, of which each is answered: all commands, some of them refused, and lines that are no command. There are
# never more than some clients, filters and topics at a time, and sessions that outlive their connection end soon.
mixed() { # LINES
    python3 - "$1" << 'END'
import random
import sys

chance = random.Random(1)


def below(n):
    return int(chance.random() * n)


def fields():
    return "".join(text for text in (',"qos":1', ',"retain":true', f',"expiry":{below(9)}') if below(2))


def line():
    client = f'"client":"c{below(40)}"'
    topic = f"t/{below(30)}"
    wanted = [topic, "t/+", "#", "$share/g/t/+", f"$share/h/{topic}"][below(5)]
    kind = below(10)
    if kind == 0:
        session = ["", ',"user":"u"', f',"clean":false,"session_expiry":{below(4)}'][below(3)]
        return f'{{"do":"connect",{client}{session}}}'
    if kind == 1:
        return f'{{"do":"disconnect",{client}}}'
    if kind == 2:
        options = ["", ',"qos":2', ',"id":7,"handling":1', ',"no_local":true', ',"rap":true'][below(5)]
        return f'{{"do":"subscribe",{client},"filter":"{wanted}"{options}}}'
    if kind == 3:
        return f'{{"do":"unsubscribe",{client},"filter":"{wanted}"}}'
    if kind in (4, 5):
        payload = ["", ',"payload":"on"', ',"payload":"' + "x" * below(200) + '"'][below(3)]
        return f'{{"do":"publish",{client},"topic":"{topic}"{payload}{fields()}}}'
    if kind == 6:
        text = ["", ',"text":"topic t/+\\nuser u\\ntopic read t/1"', ',"text":"pattern %c"', ',"text":"allow all"'][below(4)]
        return f'{{"do":"acl"{text}}}'
    if kind == 7:
        return f'{{"do":"advance","seconds":{below(3)}}}'
    if kind == 8:
        return '{"do":"stat"}'
    return ["[]", "{", '{"do":"fly"}', f'{{"do":"publish",{client},"topic":"+"}}', '{"do":"stat","x":1}'][below(5)]


some = [line() + "\n" for _ in range(10000)]
sys.stdout.writelines(chance.choices(some, k=int(sys.argv[1])))
END
}

# The number of lines that end an answer, the last of them, and the program's status.
lines=1000000
mixed "$lines" > "$work/script"
shown=$({ (ulimit -v "$room" && exec "$program") < "$work/script" 2> "$work/err"; echo $? > "$work/status"; } \
    | awk '/"(reason|refused|nodes)":/ { answers++ } END { print answers, (NR > answers), $0 }')
[[ "$shown $(cat "$work/status")" =~ ^"$lines 1 "\{.*\"line\":$lines[,}].*" 1"$ ]] && [ ! -s "$work/err" ]
say $? "$lines lines in $room KiB: wanted $lines answers with copies among them and status 1, got $shown, status \
$(cat "$work/status") $(cat "$work/err")"

# Each client takes memory: so many don't fit. Those that did are answered.
clients=200000
seq -f '{"do":"connect","client":"%.0f"}' "$clients" | (ulimit -v "$room" && exec "$program") > "$work/out" 2> "$work/err"
status=$?
seq -f '{"line":%.0f,"reason":0}' "$clients" > "$work/wanted"
[ "$status" = 3 ] && [ "$(cat "$work/err")" = "mqroute: out of memory" ]
say $? "$clients clients in $room KiB: wanted status 3 and a line that says so, got status $status: $(cat "$work/err")"
written=$(wc -c < "$work/out")
[ "$written" -gt 0 ] && cmp -s -n "$written" "$work/out" "$work/wanted" && [ -z "$(tail -c 1 "$work/out")" ]
say $? "$clients clients in $room KiB: what is written should be whole lines from the front of the answers: \
$(tail -n 1 "$work/out")"

# Of a script whose subscriptions are asked about, none is kept but those that can receive nothing, and here none is.
subscribes=300000
echo "topic read t/#" > "$work/list"
{ echo '{"do":"connect","client":"c"}'; seq -f '{"do":"subscribe","client":"c","filter":"t/%.0f/#"}' "$subscribes"; } \
    > "$work/script"
shown=$( (ulimit -v "$acl_room" && exec "$acl" reach --rules own "$work/list" --script "$work/script") 2>&1)
status=$?
[ "$status" = 0 ] && [ "$shown" = "0 of $subscribes subscriptions can receive nothing" ]
say $? "reach on $subscribes subscribes in $acl_room KiB: wanted status 0 and no such subscription, got status $status: $shown"

# Lists of a hundred users with fifty lines each, one with a line more.
for user in $(seq 100); do
    echo "user u$user"
    seq -f "topic readwrite plant/hall-%.0f/u$user/#" 50
done > "$work/list"
{ cat "$work/list"; echo "pattern read plant/#"; } > "$work/longer"
head -n 1000 "$work/list" > "$work/shorter"

asks() { # STATUS LAST_LINE ARGUMENTS..: of mqroute-acl on these lists
    local last
    last=$( (ulimit -v "$acl_room" && cd "$work" && exec "$acl" "${@:3}") 2>&1)
    local status=$?
    last=$(tail -n 1 <<< "$last")
    [ "$status" = "$1" ] && [ "$last" = "$2" ]
    say $? "mqroute-acl ${*:3} in $acl_room KiB: wanted status $1 and the last line '$2', got status $status: $last"
}

clear="shorter: nothing to remark: by mqroute's own rules no line is faulty or odd, repeats another, denies nothing or is needless, \
for any client id and user name a broker can have"
asks 1 "1 difference" compare --rules own list longer
asks 0 "may write: list:56  topic readwrite plant/hall-4/u2/#" why list c plant/hall-4/u2/x --user u2
asks 0 "client c, user u9: plant/hall-7/+/# can be sent plant/hall-7/u9" reach list c "plant/hall-7/+/#" --user u9
asks 0 "$clear" lint --rules own shorter

echo "$passed passed, $failed failed"
[ "$failed" = 0 ] && [ "$passed" != 0 ]
