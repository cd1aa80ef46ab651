# Read by differences*.sh, which run scripts on a broker of their own, begun anew for each. They say `begin NAME`, which
# starts the broker in the background, sets $broker to its process, and waits until it can be used.
tools=$(cd "$(dirname "$0")/../tools" && pwd)
work=$(mktemp -d) broker= status=0
chmod 755 "$work"
trap '[ -z "$broker" ] || kill $broker; rm -rf "$work"' EXIT

# Waits, at most 20 seconds, until a command succeeds.
await() {
    tries=0
    until "$@" || [ $tries -eq 200 ]; do sleep 0.1; tries=$((tries + 1)); done
}

# compare_each PORT "REPLAY'S OPTIONS" NAME.jsonl..: what differs from mqroute's output (NAME.out) is compared with NAME.diff,
# which docs/explanation/brokers.md lists. UPDATE=1 writes NAME.diff instead.
compare_each() {
    port=$1 options=$2
    shift 2
    for script; do
        name=${script%.jsonl}
        begin "$name"
        # shellcheck disable=SC2086
        /usr/bin/python3 "$tools/replay.py" --port "$port" $options "$name.jsonl" "$name.out" > "$work/diff" \
            || [ $? -eq 1 ] || { echo "$name: replay failed"; status=1; }
        kill $broker
        wait $broker || true
        broker=
        if [ "${UPDATE:-}" ]; then cp "$work/diff" "$name.diff"; fi
        cmp -s "$work/diff" "$name.diff" || { echo "$name differs:"; diff "$name.diff" "$work/diff" || true; status=1; }
    done
}
