#!/bin/sh
# Object identifiers and super-blobs of 64 parts read per second by the proved library.
# usage: bench/blobs.sh [TIMES]
set -e
top=$(cd "$(dirname "$0")/.." && pwd)
times=${1:-200000}
log=$(mktemp)
trap 'rm -f "$log"' EXIT
(cd "$top/crates/bench" && rt run -- blobs 1 > "$log" 2>&1) || { cat "$log"; exit 1; }
for round in 1 2 3; do
    echo "round $round, load $(cut -d' ' -f1 /proc/loadavg)"
    "$top/crates/bench/out/bench" blobs "$times" time
done
