#!/bin/sh
# Calls a second of a server that echoes over our links, beside the same by hand in Rust, over one client. Then the
# processor time of both while a connection is idle.
# Usage: bench/links/run.sh [CALLS [ROUNDS [PORT]]], at any place in the repository. It needs rt and rustc.
set -e
top=$(cd "$(dirname "$0")/../.." && pwd)
calls=${1:-100000}
rounds=${2:-9}
port=${3:-23471}
work=$(mktemp -d)
trap 'rm -rf "$work"' EXIT
for program in echo client; do
    rustc --edition 2021 -O -o "$work/$program" "$top/bench/links/$program.rs"
done
(cd "$top/crates/link_bench" && rt run -- 0 0 >"$work/build" 2>&1) || { cat "$work/build"; exit 1; }
cp "$top/crates/link_bench/out/link_bench" "$work/links"

# The microseconds of one run of the client with a server of its own.
took() {
    "$work/$1" "$port" 1 >"$work/served" &
    "$work/client" "$port" "$2" "$3" 0
    wait
}

# Each round runs both, one after the other, so that what else the machine does meets both.
echo "at_a_time links_per_second by_hand_per_second ratio (medians of $rounds rounds)"
for at_a_time in 1 16 64 1024; do
    count=$((calls * at_a_time / (at_a_time > 16 ? 16 : at_a_time)))
    count=$((count * (at_a_time > 16 ? 4 : 1)))
    round=0
    rm -f "$work/links.took" "$work/echo.took"
    while [ "$round" -lt "$rounds" ]; do
        took links "$count" "$at_a_time" >>"$work/links.took"
        took echo "$count" "$at_a_time" >>"$work/echo.took"
        round=$((round + 1))
    done
    links=$(sort -n "$work/links.took" | sed -n "$((rounds / 2 + 1))p")
    echo=$(sort -n "$work/echo.took" | sed -n "$((rounds / 2 + 1))p")
    awk -v t="$at_a_time" -v n="$count" -v a="$links" -v b="$echo" \
        'BEGIN { printf "%d %d %d %.2f\n", t, n / a * 1000000, n / b * 1000000, b / a }'
done

# The clock ticks that a server took in user and kernel mode.
ticks() {
    cut -d ' ' -f 14,15 "/proc/$1/stat"
}

echo "clock ticks (user, kernel) at the start and after 5 s: first with no connection, then with an idle one"
"$work/links" "$port" 1 >"$work/served" &
server=$!
sleep 1
before=$(ticks "$server")
sleep 5
echo "$before $(ticks "$server")"
"$work/client" "$port" 64 64 6 >"$work/idle" &
sleep 1
before=$(ticks "$server")
sleep 4
echo "$before $(ticks "$server")"
wait
