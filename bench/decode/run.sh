#!/bin/sh
# Bytes a second of processor time of `ignite_thin decode`, from a file to a file, on captures of about 100 MB.
# Usage: bench/decode/run.sh, at any place in the repository; it needs rt and rustc, and 1 GB in the folder of temporary files.
set -e
top=$(cd "$(dirname "$0")/../.." && pwd)
work=$(mktemp -d)
trap 'rm -rf "$work"' EXIT
rustc --edition 2021 -O -o "$work/capture" "$top/bench/decode/capture.rs"
(cd "$top/crates/ignite_thin" && rt run -- --version >"$work/build" 2>&1) || { cat "$work/build"; exit 1; }
cp "$top/crates/ignite_thin/out/ignite_thin" "$work/thin"

measure() {
    name=$1
    shift
    "$work/capture" "$@" >"$work/in"
    size=$(wc -c <"$work/in")
    for turn in 1 2 3; do
        ("$work/thin" decode <"$work/in" >"$work/out" && times) | tail -n 1 | awk -F'[ms ]+' '{ print 60 * $1 + $2 + 60 * $3 + $4 }'
    done | sort -n | head -n 1 | awk -v name="$name" -v size="$size" '{ printf "%s: %.0f MB in %.2f s, %.0f MB a second\n", name, size / 1e6, $1, size / 1e6 / $1 }'
}

measure 'ints' ints 1400000
measure 'texts of 100 letters' texts 800000 100
measure 'texts of 4,096 letters' texts 24000 4096
measure 'ints, 10,000 requests without a reply' waiting 1400000 10000
measure 'ints, 1,024 sessions' sessions 1400000 1024
