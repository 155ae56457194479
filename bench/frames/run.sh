#!/bin/sh
# Nanoseconds a byte of cutting a stream into frames, beside the same by hand in Rust.
# Usage: bench/frames/run.sh [ROUNDS], at any place in the repository. It needs rt and rustc.
set -e
top=$(cd "$(dirname "$0")/../.." && pwd)
rounds=${1:-5}
work=$(mktemp -d)
trap 'rm -rf "$work"' EXIT
(cd "$top" && rustc --edition 2021 -O -o "$work/yardstick" bench/frames/yardstick.rs)
(cd "$top/crates/frame_bench" && rt run >"$work/build" 2>&1) || { cat "$work/build"; exit 1; }
cp "$top/crates/frame_bench/out/frame_bench" "$work/frames"

echo "frame piece ns/byte yardstick ratio (the least of 3 runs of $rounds rounds by turns)"
for body in 16 4092 8388608; do
    for piece in 1 7 1000 65536; do
        rm -f "$work/frames.times" "$work/yardstick.times"
        for turn in 1 2 3; do
            "$work/frames" "$rounds" "$body" "$piece" 16777224 2>>"$work/frames.times" >/dev/null
            "$work/yardstick" "$rounds" "$body" "$piece" 16777224 2>>"$work/yardstick.times"
        done
        for program in frames yardstick; do
            awk 'NR == 1 || $1 < t { t = $1 } END { print t / $2 }' "$work/$program.times"
        done | tr '\n' ' ' | awk -v frame=$((body + 4)) -v piece=$piece \
            '{ printf "%d %d %.3f %.3f %.2f\n", frame, piece, $1, $2, $2 / $1 }'
    done
done
