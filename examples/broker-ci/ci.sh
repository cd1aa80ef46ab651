#!/bin/sh
# A broker against mqroute, in the broker's own continuous integration:
#
#     ci.sh "COMMAND that begins the broker in the foreground"
#
# It runs the conformance cases, each on a broker begun anew, and then random scripts of a fixed seed, as many on each
# machine. In $OUT stand corpus.xml and search.xml for whoever reads JUnit's, and of each difference its files.
# What is known stands in the broker's repository, in $KNOWN/corpus and $KNOWN/search: copy it there from $OUT.
# Status: 0 nothing new differs; 1 something does; 2 something couldn't be run.
set -u
port=${PORT:-1883}
corpus=${CORPUS:-$(dirname "$(command -v mqroute-replay)")/../share/mqroute/conformance}
known=${KNOWN:-known}
out=${OUT:-mqroute-out}
scripts=${SCRIPTS:-300} seed=${SEED:-1}
[ $# -eq 1 ] || { echo "usage: ci.sh \"COMMAND that begins the broker in the foreground\"" >&2; exit 2; }

rm -rf "$out"
mkdir -p "$out" "$known/corpus" "$known/search"
mqroute-replay --port "$port" --all "$corpus" --start "$1" --known "$known/corpus" \
    --save "$out/corpus" --junit "$out/corpus.xml"
cases=$?
mqroute-search --port "$port" --start "$1" --standard --count "$scripts" --seed "$seed" --minutes 30 --known "$known/search" \
    --save "$out/search" --junit "$out/search.xml"
found=$?
[ $cases -gt $found ] || cases=$found
exit $cases
