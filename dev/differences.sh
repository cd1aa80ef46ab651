#!/bin/sh
# Runs every script of brokers/differences on a real mosquitto on loopback: differences.sh [PORT [NAME..]]
# (each_script.sh says what is compared). Without names also: the broker starts with each of taken-*.acl, and doesn't
# with any of refused-*.acl; and by `mqroute --rules mosquitto` nothing differs in the scripts that only the rules of
# access lists tell apart.
# Wants mosquitto and python3-paho-mqtt, and for the last bin/mqroute.
set -eu
. "$(dirname "$0")/each_script.sh"
cd "$(dirname "$0")/../brokers/differences"
listening=${1:-18872}
[ $# -gt 0 ] && shift
lists= alike=
[ $# -gt 0 ] || {
    set -- *.jsonl
    lists=$(echo refused-*.acl taken-*.acl)
    alike="deny-across-kinds dollar-in-pattern empty-user slash-in-names tab-after-access wild-client-ids"
}

begin() {
    printf 'listener %s 127.0.0.1\nallow_anonymous true\nuser %s\npersistence false\nsys_interval 0\nlog_dest none\n' "$listening" "$(id -un)" > "$work/conf"
    if [ -f "$1.acl" ]; then
        cp "$1.acl" "$work/acl"
        echo "acl_file $work/acl" >> "$work/conf"
    fi
    if [ -f "$1.conf" ]; then cat "$1.conf" >> "$work/conf"; fi
    "${MOSQUITTO:-/usr/sbin/mosquitto}" -c "$work/conf" 2> /dev/null &
    broker=$!
    # For scripts that set an access list.
    printf '#!/bin/sh\ncp "$MQROUTE_ACL" "%s/acl"\nkill -HUP %s\n' "$work" "$broker" > "$work/on-acl"
    chmod 755 "$work/on-acl"
    sleep 0.3
}

compare_each "$listening" "--on-acl $work/on-acl" "$@"
for name in $alike; do
    begin "$name"
    "$tools/../bin/mqroute" --rules mosquitto --acl-file "$name.acl" "$name.jsonl" > "$work/out" || [ $? -eq 1 ]
    /usr/bin/python3 "$tools/replay.py" --port "$listening" --on-acl "$work/on-acl" --rules mosquitto --acl-file "$name.acl" \
        "$name.jsonl" "$work/out" || { echo "$name differs by mosquitto's rules"; status=1; }
    kill $broker
    wait $broker || true
    broker=
done
for list in $lists; do
    case $list in refused-*) wanted=3 ;; *) wanted=124 ;; esac  # 124: it runs until it is ended
    cp "$list" "$work/acl"
    printf 'listener %s 127.0.0.1\nuser %s\nlog_dest none\nacl_file %s\n' "$listening" "$(id -un)" "$work/acl" > "$work/conf"
    refused=0
    timeout 2 "${MOSQUITTO:-/usr/sbin/mosquitto}" -c "$work/conf" 2> /dev/null || refused=$?
    [ $refused -eq "$wanted" ] || { echo "$list: mosquitto ended with $refused and not with $wanted"; status=1; }
done
exit $status
