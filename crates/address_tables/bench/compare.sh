#!/bin/sh
# compare.sh [FOLDER]: times calls of tables of addresses beside a program in Python, on the tables geoip and geoip6 of
# Debian's tor-geoipdb in the folder, or in /usr/share/tor. Builds the library without its proof. Needs `rt`, `cc` and python3.
set -eu
bench=$(cd "$(dirname "$0")" && pwd)
top=$(cd "$bench/../../.." && pwd)
work=$(mktemp -d)
trap 'rm -rf "$work"' EXIT
(cd "$top" && cp --parents -r crates.txt crates/*/src crates/*/specs "$work")
echo 'table: address_tables anyhow' >> "$work/crates.txt"
mkdir -p "$work/crates/table/src"
cp "$bench/table.txt" "$work/crates/table/src/main.rt"
python3 "$top/bindings/unproved.py" "$work" "$work/crates/table"
python3 "$bench/compare.py" "$work/table" "$@"
