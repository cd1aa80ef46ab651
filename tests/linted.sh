#!/bin/sh
# Reads the Python of the repository by flake8, and the types of tools/ by mypy: their settings are
# in tools/.flake8 and tools/pyproject.toml. What isn't installed is left out, and said in one line.
set -eu
cd "$(dirname "$0")/.."
status=0
absent=

if command -v flake8 > /dev/null; then
    flake8 --config tools/.flake8 tests tools dev bench conformance examples || status=1
else
    absent=flake8
fi
if command -v mypy > /dev/null; then
    (cd tools && mypy) || status=1
else
    absent="${absent:+$absent, }mypy"
fi

[ -z "$absent" ] || echo "linted: left out, since it isn't installed: $absent"
exit "$status"
