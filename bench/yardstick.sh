#!/usr/bin/env bash
# Builds the yardstick in FOLDER from Debian's crates, and prints where the program is: yardstick.sh FOLDER
set -euo pipefail
registry=/usr/share/cargo/registry
for crate in serde-1 serde_derive-1 serde_json-1 indexmap-1 itoa-1; do
    if ! command -v cargo > /dev/null || ! compgen -G "$registry/$crate*" > /dev/null; then
        echo "The yardstick wants cargo and Debian's librust-serde-json-dev, librust-serde-derive-dev, librust-indexmap-dev" \
            "and librust-itoa-dev; there is no ${crate%-1}." >&2
        exit 1
    fi
done
cp -r "$(dirname "$0")/yardstick" "$1/yardstick"
mkdir -p "$1/yardstick/.cargo"
printf '[source.crates-io]\nreplace-with = "debian"\n[source.debian]\ndirectory = "%s"\n' "$registry" \
    > "$1/yardstick/.cargo/config.toml"
(cd "$1/yardstick" && cargo build --release --offline --quiet)
echo "$1/yardstick/target/release/yardstick"
