#!/usr/bin/env bash
# usage: bench/texts.sh [MEGABYTES [RUNS]]
# Prints requirement blobs as texts and parses these, so many megabytes of each, in the proved library and in a plain
# Rust program, and prints for each the best of RUNS and how they stand to each other.
cd "$(dirname "$0")/.." || exit 1

megabytes=${1:-32}
runs=${2:-9}
printed="mixture-50 mixture-500 mixture-4k mixture-64k cdhashes-500 cdhashes-4k cdhashes-64k"
parsed="mixture-50 mixture-500 mixture-4k text-64k cdhashes-500 cdhashes-4k"
work=$(mktemp -d)
trap 'rm -rf "$work"' EXIT

(cd crates/bench && rt run -- blobs 1 >"$work/log" 2>&1) || { cat "$work/log"; exit 1; }
proved=$PWD/crates/bench/out/bench
rustc -O --edition 2024 -o "$work/plain" bench/plain_opcodes.rs || exit 1
mkdir "$work/inputs" && cd "$work/inputs" && ../plain inputs . || exit 1

# Word for word: who, then name, and of printing and of parsing the bytes, how often and the nanoseconds.
for _ in $(seq "$runs"); do
  ../plain texts "$megabytes" $printed text-64k | sed 's/^/plain /'
  "$proved" texts "$megabytes" time $printed text-64k | sed 's/^/proved /'
done >../times || exit 1

echo "best of $runs, load $(cut -d' ' -f1 /proc/loadavg)"
awk -v printed="$printed" -v parsed="$parsed" '
  function keep(at, size, times, nanos) { bytes[at] = size; count[at] = times; if (!(at in best) || nanos < best[at]) best[at] = nanos }
  { keep($1 " printed " $2, $3, $4, $5); keep($1 " parsed " $2, $6, $7, $8) }
  function told(who, what, name,   at) {
    at = who " " what " " name
    return sprintf("%s %9d a second, %4d MB/s", who, count[at] * 1e9 / best[at], count[at] * bytes[at] * 1e3 / best[at])
  }
  function show(what, names,   list, total, n, name, ratio) {
    total = split(names, list, " ")
    for (n = 1; n <= total; n++) {
      name = list[n]
      ratio = best["plain " what " " name] / best["proved " what " " name]
      printf "%-7s %-12s %6d bytes: %s; %s; ratio %.2f\n", what, name, bytes["plain " what " " name], told("proved", what, name), told("plain", what, name), ratio
    }
  }
  END { show("printed", printed); show("parsed", parsed) }' ../times
