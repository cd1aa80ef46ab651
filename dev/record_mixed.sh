#!/bin/sh
# Records a log of other clients than those of record.sh, over TCP and websockets, with takeovers across both:
# record_mixed.sh [PORT [WEBSOCKETS_PORT [NAME]]]. Writes brokers/recorded/NAME.log (mixed). Wants mosquitto, mosquitto_sub,
# mosquitto_pub and python3-paho-mqtt; takes about a minute and a half.
set -eu
cd "$(dirname "$0")/../brokers"
port=${1:-18871} web=${2:-18872} name=${3:-mixed}
work=$(mktemp -d)
chmod 755 "$work"
cp recorded/mixed.acl "$work/acl"
cat > "$work/conf" <<CONF
user $(id -un)
allow_anonymous true
persistence false
acl_file $work/acl
log_dest file $work/log
log_type all
listener $port 127.0.0.1
listener $web 127.0.0.1
socket_domain ipv4
protocol websockets
CONF
chmod 644 "$work/acl"
timeout 300 "${MOSQUITTO:-/usr/sbin/mosquitto}" -c "$work/conf" &
broker=$!
trap 'kill $broker 2>/dev/null || true; rm -rf "$work"' EXIT
sleep 1
/usr/bin/python3 ../dev/record_mixed.py "$port" "$web"
kill $broker
wait $broker || true
cp "$work/log" "recorded/$name.log"
chmod 644 "recorded/$name.log"
wc -l "recorded/$name.log"
