#!/bin/sh
# Time of a question for the owner of a key, by a map that was prepared, beside a table written by hand in Rust.
# Usage: bench/parts/run.sh [ASKS [ROUNDS]], at any place in the repository. It needs rt and rustc.
set -e
top=$(cd "$(dirname "$0")/../.." && pwd)
asks=${1:-1000000}
rounds=${2:-7}
work=$(mktemp -d)
trap 'rm -rf "$work"' EXIT
(cd "$top" && rustc --edition 2021 -O -o "$work/yardstick" bench/parts/yardstick.rs)
(cd "$top/crates/parts_bench" && rt run -- 4 1024 1000 >"$work/build" 2>&1) || { cat "$work/build"; exit 1; }
cp "$top/crates/parts_bench/out/parts_bench" "$work/parts"

# The least picoseconds of a question in several rounds of both programs by turns.
echo "nodes partitions routes yardstick ratio (ps a question, the least of $rounds rounds of $asks)"
for row in "4 1024" "16 1000" "1000 65536" "1000 65000"; do
    rm -f "$work/parts.times" "$work/yardstick.times"
    round=0
    while [ "$round" -lt "$rounds" ]; do
        "$work/parts" $row "$asks" 2>>"$work/parts.times" >/dev/null
        "$work/yardstick" $row "$asks" 2>>"$work/yardstick.times" >/dev/null
        round=$((round + 1))
    done
    parts=$(awk '$1 == "routes" { print $2 }' "$work/parts.times" | sort -n | head -1)
    yardstick=$(awk '$1 == "routes" { print $2 }' "$work/yardstick.times" | sort -n | head -1)
    echo "$row $parts $yardstick" | awk '{ printf "%d %d %d %d %.2f\n", $1, $2, $3, $4, $4 / $3 }'
done
"$work/parts" 1000 65536 "$asks" 2>&1 >/dev/null | grep -v routes
