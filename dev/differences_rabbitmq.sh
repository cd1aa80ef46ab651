#!/bin/sh
# Runs every script of brokers/differences/rabbitmq on a RabbitMQ of one's own on loopback: differences_rabbitmq.sh [PORT [NAME..]]
# (each_script.sh says what is compared). Wants rabbitmq-server 4 and python3-paho-mqtt. With $RABBITMQ_IN, as 'chroot FOLDER',
# the broker is the one in that folder, which has /tmp, /dev and /proc mounted.
set -eu
. "$(dirname "$0")/each_script.sh"
cd "$(dirname "$0")/../brokers/differences/rabbitmq"
listening=${1:-18874}
[ $# -gt 0 ] && shift
[ $# -gt 0 ] || set -- *.jsonl
cat > "$work/rabbitmq.conf" <<CONF
listeners.tcp = none
mqtt.listeners.tcp.1 = 127.0.0.1:$listening
mqtt.allow_anonymous = true
anonymous_login_user = guest
anonymous_login_pass = guest
CONF
echo '[rabbitmq_mqtt].' > "$work/plugins"
export HOME="$work" RABBITMQ_CONFIG_FILE="$work/rabbitmq.conf" RABBITMQ_ENABLED_PLUGINS_FILE="$work/plugins"
export RABBITMQ_MNESIA_BASE="$work/spool" RABBITMQ_LOG_BASE="$work/log" RABBITMQ_NODENAME=mqroute@localhost
export RABBITMQ_DIST_PORT=$((listening + 1)) ERL_EPMD_PORT=$((listening + 2)) ERL_EPMD_ADDRESS=127.0.0.1

begin() {
    rm -rf "$work/spool" "$work/shown"
    # shellcheck disable=SC2016
    ${RABBITMQ_IN:-env} sh -c 'exec /usr/lib/rabbitmq/lib/rabbitmq_server-*/sbin/rabbitmq-server' > "$work/shown" 2>&1 &
    broker=$!
    await grep -qs 'Starting broker... completed' "$work/shown"
}

compare_each "$listening" "" "$@"
${RABBITMQ_IN:-env} epmd -kill > "$work/shown" 2>&1 || true
exit $status
