#!/bin/sh
# Calls a second on a counter behind a turn, beside the same behind std::sync::Mutex, by 1, 2, 4 and 16 threads.
# Usage: bench/turn/run.sh [CALLS [ROUNDS]], at any place in the repository. It needs rt and rustc.
set -e
top=$(cd "$(dirname "$0")/../.." && pwd)
calls=${1:-4000000}
rounds=${2:-9}
work=$(mktemp -d)
trap 'rm -rf "$work"' EXIT
rustc -O -o "$work/mutex" "$top/bench/turn/mutex.rs"
(cd "$top/crates/turn_bench" && rt run -- 1 1 >"$work/build" 2>&1) || { cat "$work/build"; exit 1; }
cp "$top/crates/turn_bench/out/turn_bench" "$work/turn"

# The microseconds of one run.
took() {
    "$1" "$2" "$3" 2>&1 >/dev/null | cut -d ' ' -f 1
}

# Each round runs both, one after the other, so that what else the machine does meets both.
echo "threads turn_per_second mutex_per_second ratio (medians of $rounds rounds of $calls calls)"
for threads in 1 2 4 16; do
    each=$((calls / threads))
    round=0
    while [ "$round" -lt "$rounds" ]; do
        took "$work/turn" "$threads" "$each" >>"$work/turn.$threads"
        took "$work/mutex" "$threads" "$each" >>"$work/mutex.$threads"
        round=$((round + 1))
    done
    turn=$(sort -n "$work/turn.$threads" | sed -n "$((rounds / 2 + 1))p")
    mutex=$(sort -n "$work/mutex.$threads" | sed -n "$((rounds / 2 + 1))p")
    awk -v t="$threads" -v n="$((each * threads))" -v a="$turn" -v b="$mutex" \
        'BEGIN { printf "%d %d %d %.2f\n", t, n / a * 1000000, n / b * 1000000, b / a }'
done
