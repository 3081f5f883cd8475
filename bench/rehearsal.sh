#!/usr/bin/env bash
# usage: bench/rehearsal.sh [RUNS [STEPS]]
# Times `rehearse STEPS` (10,000) in the freshly built proved program and in a plain Rust program, one after the other,
# and prints as a table the medians of RUNS: the processor time of each for 10 rehearsals, and how many times as long
# the program took as the plain one beside it. Both have to print the same.
cd "$(dirname "$0")/.." || exit 1

runs=${1:-15}
steps=${2:-10000}
work=$(mktemp -d)
trap 'rm -rf "$work"' EXIT

make -s build || exit 1
rustc -O -o "$work/plain" bench/plain_rehearsal.rs || exit 1

by_program() { build/gatekeeper :memory: rehearse "$steps"; }
by_plain() { "$work/plain" "$steps"; }

by_plain >"$work/plain.out" || exit 1
by_program >"$work/proved.out" || exit 1
cmp "$work/plain.out" "$work/proved.out" || exit 1

ten_times() {
  for _ in 1 2 3 4 5 6 7 8 9 10; do "$1" >"$work/out" || exit 1; done
}

# milliseconds of processor, the program's own and the system's for it: FUNCTION
milliseconds() {
  local TIMEFORMAT="%3U %3S"
  { time ten_times "$1"; } 2>&1 | awk '{ printf "%d\n", ($1 + $2) * 1000 }'
}

median() {
  sort -n "$1" | awk '{ all[NR] = $1 } END { print all[int((NR + 1) / 2)] }'
}

for _ in $(seq "$runs"); do
  milliseconds by_plain >>"$work/plain.ms"
  milliseconds by_program >>"$work/proved.ms"
done
paste "$work/plain.ms" "$work/proved.ms" | awk '{ print $2 / $1 }' >"$work/times.ms"

echo "| Ten rehearsals | Plain Rust | gatekeeper | Times as long |"
echo "|---|---|---|---|"
awk -v steps="$steps" -v a="$(median "$work/plain.ms")" -v b="$(median "$work/proved.ms")" \
  -v times="$(median "$work/times.ms")" 'BEGIN { printf "| of %d steps | %d ms | %d ms | %.2f |\n", steps, a, b, times }'
