#!/bin/sh
# Nanoseconds of reading and writing values, beside a decoder and encoder written by hand in Rust.
# Usage: bench/values/run.sh [ROUNDS], at any place in the repository. It needs rt and rustc.
set -e
top=$(cd "$(dirname "$0")/../.." && pwd)
rounds=${1:-200}
work=$(mktemp -d)
trap 'rm -rf "$work"' EXIT
# By a path that is the same everywhere: it is written into the program, and moves its times by up to 15%.
(cd "$top" && rustc --edition 2021 -O -o "$work/yardstick" bench/values/yardstick.rs)
(cd "$top/crates/value_bench" && rt run -- 1 >"$work/build" 2>&1) || { cat "$work/build"; exit 1; }
cp "$top/crates/value_bench/out/value_bench" "$work/values"

# The least times of one value, "DECODE ENCODE": five runs of each program by turns, so that what else the machine does
# meets both. Left in $work/values.least and $work/yardstick.least.
least() {
    rm -f "$work/values.times" "$work/yardstick.times"
    for turn in 1 2 3 4 5; do
        "$work/values" "$rounds" "$1" "$2" 2>>"$work/values.times" >/dev/null
        "$work/yardstick" "$rounds" "$1" "$2" 2>>"$work/yardstick.times" >/dev/null
    done
    for program in values yardstick; do
        awk 'NR == 1 || $2 < d { d = $2 } NR == 1 || $4 < e { e = $4 } NR == 1 || $6 < p { p = $6 } END { print d, e, p }' \
            "$work/$program.times" >"$work/$program.least"
    done
}

echo "value items decode yardstick ratio encode yardstick ratio (ns, the least of 5 runs of $rounds rounds)"
for row in "bytes 1048576" "ints 262144" "longs 131072" "doubles 131072" "text 1048576" \
    "texts 1000" "list 1000" "nested 1000" "map 1000" "object 10" "objects 1000" "deep 1048576"; do
    least $row
    echo "$row $(cat "$work/values.least") $(cat "$work/yardstick.least")" |
        awk '{ printf "%s %d %d %d %.2f %d %d %.2f\n", $1, $2, $3, $6, $6 / $3, $4, $7, $7 / $4 }'
done

echo "value items decode encode, and as a part of twice the time at half the items"
for row in "ints 131072" "text 524288" "list 20000" "nested 10000" "map 20000"; do
    set -- $row
    least "$1" "$2"
    half=$(cat "$work/values.least")
    least "$1" "$(($2 * 2))"
    echo "$1 $(($2 * 2)) $(cat "$work/values.least") $half" |
        awk '{ printf "%s %d %d %d %.2f %.2f\n", $1, $2, $3, $4, $3 / $6 / 2, $4 / $7 / 2 }'
done

echo "value items encode, in pieces of 65536 by a mark, and encode as a part of that"
rounds=$((rounds / 20 + 1))
for row in "list 1000000" "inlist 1000000" "objects 20000" "object 1000000" "deep 1048576"; do
    set -- $row
    least "$1" "$2"
    echo "$1 $2 $(cat "$work/values.least")" | awk '{ printf "%s %d %d %d %.2f\n", $1, $2, $4, $5, $4 / $5 }'
done
