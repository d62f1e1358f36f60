#!/bin/sh
# compare.sh [MEGABYTES]: cuts so many megabytes (10) of the headers of libc6-dev and linux-libc-dev by rules of C, and as
# many of the kit's JSON by those of JSON, into tokens: by a machine, by the table in C that `tokens` writes, by scanners that
# flex and re2c make of the same rules, and by Python's `re`. All have to find the same. Prints the quickest of some times,
# the ratios to the machine's, and instructions where there is `valgrind`. Builds the library and `tokens` without their
# proof. Needs `rt`, flex, re2c, `cc`, python3 and dpkg.
set -eu
bench=$(cd "$(dirname "$0")" && pwd)
top=$(cd "$bench/../../.." && pwd)
bytes=$((${1:-10} * 1000000))
work=$(mktemp -d)
trap 'rm -rf "$work"' EXIT
(cd "$top" && cp --parents -r crates.txt crates/*/src crates/*/specs "$work")
echo 'scan: anyhow lexing lexing_patterns' >> "$work/crates.txt"
mkdir -p "$work/crates/scan/src"
cp "$bench/scan.txt" "$work/crates/scan/src/main.rt"
for crate in scan tokens; do
    python3 "$top/bindings/unproved.py" "$work" "$work/crates/$crate"
done

# The files whose names are given, over and over, until there are enough bytes.
enough() {
    xargs cat > "$work/once"
    while cat "$work/once"; do :; done | head -c $bytes | iconv -c -f utf8 -t utf8
}
dpkg -L libc6-dev linux-libc-dev | grep '\.h$' | sort | enough > "$work/c"
ls "${RATTLE_KIT:-/opt/rattle}"/rlibs/*/toolchain/mir.json | enough > "$work/json"
for language in c json; do
    python3 "$bench/compare.py" "$work" "$bench/$language.txt" "$work/$language"
done
