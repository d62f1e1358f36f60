#!/bin/sh
# compare.sh [RANGES]: makes a map or a set out of two, one of so many ranges (100,000) and one of as many or of 100,
# beside a loop in Rust over std's BTreeMap; and changes one in place by such another, beside the same changes of std's
# map, and beside as many look-ups and insertions one by one. Both sides have to make the same. Prints the quickest of
# 200 times of making and of 40 of changing, and where there is valgrind the instructions; of changing, less those of
# copying what is changed. Builds the library without its proof. Needs `rt`, `rustc` 1.91 or later, `cc` and python3.
set -eu
bench=$(cd "$(dirname "$0")" && pwd)
top=$(cd "$bench/../../.." && pwd)
ranges=${1:-100000}
work=$(mktemp -d)
trap 'rm -rf "$work"' EXIT
(cd "$top" && cp --parents -r crates.txt crates/*/src crates/*/specs "$work")
mkdir -p "$work/crates/algebra/src"
echo 'algebra: btree_range_map anyhow' >> "$work/crates.txt"
cp "$bench/algebra.txt" "$work/crates/algebra/src/main.rt"
python3 "$top/bindings/unproved.py" "$work" "$work/crates/algebra"
rustc -O -o "$work/standard" "$bench/standard.rs"
cd "$work"

# The quickest of so many times: quickest TIMES PROGRAM maps|sets KIND all|few
quickest() {
    times=$1
    shift
    "$@" "$ranges" "$times" | cut -d ' ' -f 1
}

# The instructions of one time more, or 0: counted PROGRAM maps|sets KIND all|few
counted() {
    for times in 1 2; do
        valgrind --tool=cachegrind --cache-sim=no --cachegrind-out-file=/dev/null "$@" "$ranges" $times 2>&1 >said |
            awk '/I *refs/ { gsub(",", "", $NF); print $NF }'
    done | awk '{ more = $1 - before; before = $1 } END { printf "%.0f\n", more }'
}

# Fails where the two sides do not make the same.
same() {
    ./standard "$@" "$ranges" 1 > standard.said
    ./algebra "$@" "$ranges" 1 > algebra.said
    read -r _ sum < standard.said
    read -r _ made < algebra.said
    [ "$sum" = "$made" ] || { echo "$*: not the same is made" >&2; exit 1; }
}

row() {
    awk -v name="$1" -v unit="$2" -v theirs="$3" -v ours="$4" \
        'BEGIN { if (theirs > 0) printf "%s: %d and %d %s, ratio %.2f\n", name, theirs, ours, unit, ours / theirs }'
}

calls="maps combine,maps overlay,maps restrict,maps without"
calls="$calls,sets union,sets intersection,sets difference,sets symmetric_difference"
for size in all few; do
    echo "$calls" | tr , '\n' | while read -r of kind; do
        same "$of" "$kind" $size
        set -- "$of" "$kind" $size
        row "$*" ns "$(quickest 200 ./standard "$@")" "$(quickest 200 ./algebra "$@")"
        row "$*" instructions "$(counted ./standard "$@")" "$(counted ./algebra "$@")"
    done

    for of in maps sets; do
        same $of copy $size
        theirs=$(counted ./standard $of copy $size)
        ours=$(counted ./algebra $of copy $size)
        one=$(quickest 40 ./algebra $of one_by_one $size)
        each=$(($(counted ./algebra $of one_by_one $size) - ours))
        for kind in extend extend_from remove_all retain_all; do
            set -- $of $kind $size
            same "$@"
            time=$(quickest 40 ./algebra "$@")
            steps=$(($(counted ./algebra "$@") - ours))
            row "$*" ns "$(quickest 40 ./standard "$@")" "$time"
            row "$*" instructions $(($(counted ./standard "$@") - theirs)) $steps
            # that one takes out many more ranges than the other has
            [ $kind = retain_all ] && continue
            row "$* beside one by one" ns "$one" "$time"
            row "$* beside one by one" instructions $each $steps
        done
    done
done
