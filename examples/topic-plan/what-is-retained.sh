#!/bin/sh
# Writes a script of what a live broker has retained, by mosquitto_sub, for `mqroute-plan retained`:
#
#     what-is-retained.sh SECONDS [OPTION of mosquitto_sub]..
#
# It takes what comes in so many seconds, and what the user may read. mosquitto_sub shows a payload up to a U+0000, and no
# bytes that aren't UTF-8: such a payload is written as its number of bytes, as of a log.
set -eu
seconds=$1
shift
found=$(mktemp)
trap 'rm -f "$found"' EXIT
status=0
mosquitto_sub --quiet -V 5 "$@" -q 2 -t '#' --retained-only -W "$seconds" -F %j > "$found" || status=$?
if [ $status -ne 27 ]; then # which says that the time is over
    echo "what-is-retained.sh: mosquitto_sub has status $status" >&2
    exit 2
fi
echo '{"do":"connect","client":"broker"}'
jq -c '
    def is_whole: (.payload | utf8bytelength) == .payloadlen and (.payload | contains("\ufffd") | not);
    {do: "publish", client: "broker", topic, qos, retain: true,
     payload: (if is_whole then .payload else "\(.payloadlen) bytes" end)}
    + (.properties["message-expiry-interval"] | if . then {expiry: .} else {} end)' "$found"
