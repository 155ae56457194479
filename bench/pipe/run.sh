#!/bin/sh
# Seconds of processor time of sessions through `ignite_thin pipe main`, from a file to a file, beside `cat` of as
# many bytes as the replies have.
# Usage: bench/pipe/run.sh [OTHER], at any place in the repository; OTHER is another program that takes the same words. It
# needs rt and rustc, and 4 GB in the folder of temporary files.
set -e
top=$(cd "$(dirname "$0")/../.." && pwd)
other=$1
work=$(mktemp -d)
trap 'rm -rf "$work"' EXIT
rustc --edition 2021 -O -o "$work/requests" "$top/bench/pipe/requests.rs"
(cd "$top/crates/ignite_thin" && rt run -- --version >"$work/build" 2>&1) || { cat "$work/build"; exit 1; }
cp "$top/crates/ignite_thin/out/ignite_thin" "$work/thin"

# the least processor time of three runs of a command over a file, in seconds
least() {
    file=$1
    shift
    for turn in 1 2 3; do
        ("$@" <"$file" >"$work/out" && times) | tail -n 1 | awk -F'[ms ]+' '{ print 60 * $1 + $2 + 60 * $3 + $4 }'
    done | sort -n | head -n 1
}

measure() {
    name=$1
    shift
    "$work/requests" "$@" >"$work/in"
    ours=$(least "$work/in" "$work/thin" pipe main)
    cp "$work/out" "$work/replies"
    cat=$(least "$work/replies" cat)
    line="$name: $ours s, cat $cat s"
    [ -z "$other" ] || line="$line, the other $(least "$work/in" "$other" pipe main) s"
    echo "$line"
}

measure '4,000,000 puts and gets of ints on 10 keys' ints 4000000 10
measure '4,000,000 puts and gets of ints on 100,000 keys' ints 4000000 100000
measure '200,000 gets of 4 KiB' gets 200000 4096
measure '100 gets of 8,388,583 letters' gets 100 8388583
other=
measure '100,000 rows' rows 100000
measure '100,000 rows and their scan by pages of 1,000' scan 100000
measure '1,000,000 rows' rows 1000000
measure '1,000,000 rows and their scan by pages of 1,000' scan 1000000
