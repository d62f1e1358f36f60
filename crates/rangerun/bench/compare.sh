#!/bin/sh
# Times commands of `rangerun i32` beside the same commands of a Rust program over std's `BTreeMap`.
# First, in this crate: rt run. Then: bench/compare.sh [RANGES]
set -eu
cd "$(dirname "$0")/.."
work=$(mktemp -d)
trap 'rm -rf "$work"' EXIT
rustc -O -o "$work/standard" bench/standard.rs
python3 bench/compare.py "$work/standard" out/rangerun "$@"
