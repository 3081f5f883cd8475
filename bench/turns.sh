#!/bin/sh
# Turns per second of the turn lock beside std's mutexes, Rattle's and Rust's, with one, two and four threads.
# usage: bench/turns.sh [TURNS A THREAD]
set -e
top=$(cd "$(dirname "$0")/.." && pwd)
turns=${1:-500000}
build=$(mktemp -d)
trap 'rm -rf "$build"' EXIT
(cd "$top/crates/bench" && rt run -- turns 1 > "$build/log" 2>&1) || { cat "$build/log"; exit 1; }
rustc -O -o "$build/mutex_turns" "$top/bench/mutex_turns.rs"
for round in 1 2 3; do
    echo "round $round, load $(cut -d' ' -f1 /proc/loadavg)"
    "$top/crates/bench/out/bench" turns "$turns" time
    "$build/mutex_turns" "$turns"
done
