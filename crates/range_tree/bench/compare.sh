#!/bin/sh
# Times searches, insertions and removals at scattered keys, and the iteration, of a map over the B-tree and over the
# vector, and of std's BTreeMap, at 1,000 to 1,000,000 items; prints the ratios of the first to the last; and measures
# the memory of each at its fullest. Builds the library without its proof. Needs `rt`, `rustc`, `cc`, python3 and
# `/usr/bin/time`.
set -eu
top=$(cd "$(dirname "$0")/../../.." && pwd)
work=$(mktemp -d)
trap 'rm -rf "$work"' EXIT
(cd "$top" && cp --parents -r crates.txt crates/*/src crates/*/specs "$work")
mkdir -p "$work/crates/containers/src"
echo 'containers: btree_range_map anyhow' >> "$work/crates.txt"
cp "$(dirname "$0")/containers.txt" "$work/crates/containers/src/main.rt"
python3 "$top/bindings/unproved.py" "$work" "$work/crates/containers"
cd "$work"
./containers > times
cat times
awk '
    $1 == "tree" { get = $4; insert = $6; remove = $8; iteration = $11 }
    $1 == "std" { printf "tree to std, %d: get %.1f insert %.1f remove %.1f iteration %.1f\n", $2, get / $4, insert / $6, remove / $8, iteration / $11 }
' times

# The most memory that such a map of n items has taken while it was filled, over that of a program with an empty one.
for container in tree vector std; do
    empty=$(/usr/bin/time -f %M ./containers "$container" 0 2>&1 >said)
    for n in 100000 1000000; do
        full=$(/usr/bin/time -f %M ./containers "$container" "$n" 2>&1 >said)
        echo "$container $n: $(((full - empty) * 1024 / n)) bytes an item"
    done
done
