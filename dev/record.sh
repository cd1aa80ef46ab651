#!/bin/sh
# Records a log of lively use with a real mosquitto on loopback: record.sh plain|sessions [PORT]
# Writes brokers/recorded/KIND.log. Wants mosquitto and python3-paho-mqtt; takes about a minute and a half.
set -eu
cd "$(dirname "$0")/../brokers"
kind=${1:?plain or sessions} port=${2:-18871}
work=$(mktemp -d)
chmod 755 "$work"
cp "recorded/$kind.acl" "$work/acl"
cat > "$work/conf" <<CONF
listener $port 127.0.0.1
allow_anonymous true
user $(id -un)
persistence false
sys_interval 0
acl_file $work/acl
log_dest file $work/log
log_type all
CONF
chmod 644 "$work/acl"
"${MOSQUITTO:-/usr/sbin/mosquitto}" -c "$work/conf" &
broker=$!
trap 'kill $broker 2>/dev/null || true; rm -rf "$work"' EXIT
sleep 1
/usr/bin/python3 ../dev/record_clients.py "$kind" "$port"
kill $broker
wait $broker || true
cp "$work/log" "recorded/$kind.log"
chmod 644 "recorded/$kind.log"
wc -l "recorded/$kind.log"
