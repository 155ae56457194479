#!/bin/sh
# Time of calls on rows that are spread over 64 shards, beside shards written by hand in Rust.
# Usage: bench/shards/run.sh [ROUNDS [ROWS..]], at any place in the repository. It needs rt and rustc.
set -e
top=$(cd "$(dirname "$0")/../.." && pwd)
rounds=${1:-5}
[ "$#" -gt 0 ] && shift
rows=${*:-1000 1000000}
work=$(mktemp -d)
trap 'rm -rf "$work"' EXIT
(cd "$top" && rustc --edition 2021 -O -o "$work/yardstick" bench/shards/yardstick.rs)
(cd "$top/crates/shards_bench" && rt run >"$work/build" 2>&1) || { cat "$work/build"; exit 1; }
cp "$top/crates/shards_bench/out/shards_bench" "$work/shards"

# The least picoseconds of each kind of call in several rounds of both programs by turns.
echo "keys rows call shards yardstick ratio (ps a call or row, the least of $rounds rounds)"
for kind in int early late; do
    for count in $rows; do
        rm -f "$work/shards.times" "$work/yardstick.times"
        round=0
        while [ "$round" -lt "$rounds" ]; do
            "$work/shards" "$kind" "$count" 64 2>>"$work/shards.times" >"$work/shards.out"
            "$work/yardstick" "$kind" "$count" 64 2>>"$work/yardstick.times" >"$work/yardstick.out"
            cmp -s "$work/shards.out" "$work/yardstick.out" || { cat "$work"/*.out; exit 1; }
            round=$((round + 1))
        done
        for call in new get put scan remove; do
            least() { awk -v call="$call" '$1 == call { print $2 }' "$1" | sort -n | head -1; }
            echo "$kind $count $call $(least "$work/shards.times") $(least "$work/yardstick.times")" |
                awk '{ printf "%s %d %s %d %d %.2f\n", $1, $2, $3, $4, $5, $5 / ($4 > 0 ? $4 : 1) }'
        done
    done
done
