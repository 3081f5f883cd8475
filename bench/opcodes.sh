#!/usr/bin/env bash
# usage: bench/opcodes.sh [MEGABYTES [RUNS]]
# Reads and writes requirement blobs, so many megabytes of each, in the proved library and in a plain Rust
# program, and prints for each the best of RUNS and how they stand to each other.
cd "$(dirname "$0")/.." || exit 1

megabytes=${1:-32}
runs=${2:-9}
names="mixture-50 mixture-500 mixture-4k mixture-64k cdhashes-500 cdhashes-4k cdhashes-64k"
work=$(mktemp -d)
trap 'rm -rf "$work"' EXIT

(cd crates/bench && rt run -- blobs 1 >"$work/log" 2>&1) || { cat "$work/log"; exit 1; }
proved=$PWD/crates/bench/out/bench
rustc -O --edition 2024 -o "$work/plain" bench/plain_opcodes.rs || exit 1
mkdir "$work/inputs" && cd "$work/inputs" && ../plain inputs . || exit 1

# Word for word: who, then name, bytes, how often, nanoseconds of reading and of writing.
for _ in $(seq "$runs"); do
  ../plain "$megabytes" $names | sed 's/^/plain /'
  "$proved" opcodes "$megabytes" time $names | sed 's/^/proved /'
done >../times || exit 1

echo "best of $runs, load $(cut -d' ' -f1 /proc/loadavg)"
awk -v names="$names" '
  function keep(at, nanos) { if (!(at in best) || nanos < best[at]) best[at] = nanos }
  { bytes[$2] = $3; times[$2] = $4; keep($1 " read " $2, $5); keep($1 " written " $2, $6) }
  function told(who, what, name,   nanos) {
    nanos = best[who " " what " " name]
    return sprintf("%s %9d a second, %4d MB/s", who, times[name] * 1e9 / nanos, times[name] * bytes[name] * 1e3 / nanos)
  }
  END {
    count = split(names, list, " ")
    for (w = 1; w <= 2; w++) for (n = 1; n <= count; n++) {
      what = w == 1 ? "read" : "written"
      name = list[n]
      ratio = best["plain " what " " name] / best["proved " what " " name]
      printf "%-7s %-12s %5d bytes: %s; %s; ratio %.2f\n", what, name, bytes[name], told("proved", what, name), told("plain", what, name), ratio
    }
  }' ../times
