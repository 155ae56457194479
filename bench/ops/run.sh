#!/bin/sh
# Time of a page of rows of ints as a whole, as a part of its time in pieces of 65,536 bytes.
# Usage: bench/ops/run.sh [ROUNDS], at any place in the repository. It needs rt.
set -e
top=$(cd "$(dirname "$0")/../.." && pwd)
rounds=${1:-20}
work=$(mktemp -d)
trap 'rm -rf "$work"' EXIT
(cd "$top/crates/ops_bench" && rt run -- 1000 1 >"$work/build" 2>&1) || { cat "$work/build"; exit 1; }
cp "$top/crates/ops_bench/out/ops_bench" "$work/ops"
echo "rows write pieces ratio (ns, the least of $rounds rounds)"
for rows in 1000 10000 100000 1000000; do
    echo "$rows $("$work/ops" $rows "$rounds" 2>&1 >/dev/null)" |
        awk '{ printf "%d %d %d %.2f\n", $1, $3, $5, $3 / $5 }'
done
