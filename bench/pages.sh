#!/bin/sh
# Code hashed in one piece, and page by page against its signature, in megabytes a second.
# usage: bench/pages.sh [MEGABYTES]
set -e
top=$(cd "$(dirname "$0")/.." && pwd)
size=${1:-64}
log=$(mktemp)
trap 'rm -f "$log"' EXIT
(cd "$top/crates/bench" && rt run -- pages 1 > "$log" 2>&1) || { cat "$log"; exit 1; }
for round in 1 2 3 4 5; do
    echo "round $round, load $(cut -d' ' -f1 /proc/loadavg)"
    "$top/crates/bench/out/bench" pages "$size" time
done
