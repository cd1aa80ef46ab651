#!/bin/sh
# Publishes the messages of a script on a live broker, by mosquitto_pub:
#
#     publish.sh SCRIPT [OPTION of mosquitto_pub]..
#
# mosquitto_pub has status 0 for a message that the broker refuses: look afterwards at what is retained.
set -eu
script=$1
shift
payload=$(mktemp)
trap 'rm -f "$payload"' EXIT
jq -c 'select(.do == "publish")' "$script" | while IFS= read -r line; do
    field() { printf '%s\n' "$line" | jq -j "$1"; }
    field '.payload // ""' > "$payload"
    if [ -s "$payload" ]; then what="-f $payload"; else what=-n; fi
    retain=$(field 'if .retain then "-r" else "" end')
    expiry=$(field '.expiry // ""')
    # shellcheck disable=SC2086  # words, or none
    mosquitto_pub -V 5 "$@" -t "$(field .topic)" -q "$(field '.qos // 0')" $retain $what \
        ${expiry:+-D publish message-expiry-interval "$expiry"}
done
