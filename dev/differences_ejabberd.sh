#!/bin/sh
# Runs every script of brokers/differences/ejabberd on an ejabberd of one's own on loopback: differences_ejabberd.sh [PORT [NAME..]]
# (each_script.sh says what is compared). Wants ejabberd and python3-paho-mqtt.
set -eu
. "$(dirname "$0")/each_script.sh"
cd "$(dirname "$0")/../brokers/differences/ejabberd"
listening=${1:-18873}
[ $# -gt 0 ] && shift
[ $# -gt 0 ] || set -- *.jsonl
cat > "$work/ejabberd.yml" <<CONF
hosts: [localhost]
loglevel: warning
auth_method: [internal]
listen:
  - {port: $listening, ip: "127.0.0.1", module: mod_mqtt}
modules:
  mod_mqtt: {}
CONF
export EJABBERD_CONFIG_PATH="$work/ejabberd.yml" EJABBERD_LOG_PATH="$work/ejabberd.log" EJABBERD_PID_PATH="$work/pid" ERL_CRASH_DUMP="$work/crash"
export ERL_LIBS="${EJABBERD_LIBS:-/usr/lib/$(uname -m)-linux-gnu}"
# One account for all clients; then the file that says so.
ready="application:ensure_all_started(ejabberd), ejabberd_auth:try_register(<<\"u\">>, <<\"localhost\">>, <<\"pw\">>), file:write_file(\"$work/ready\", <<>>)."

begin() {
    rm -rf "$work/spool" "$work/ready"
    timeout 120 erl -noinput -mnesia dir "\"$work/spool\"" -s ejabberd -eval "$ready" > "$work/shown" 2>&1 &
    broker=$!
    await test -f "$work/ready"
}

compare_each "$listening" "--user u@localhost --password pw" "$@"
exit $status
