#!/usr/bin/env bash
# usage: bench/session.sh [RUNS [SESSION..]]
# Times sessions in the freshly built proved program and in a plain Rust loop, one after the other, and prints as a
# table the medians of RUNS: the processor time of each, and how many times as long the program took as the loop beside
# it. Both have to print the same. A SESSION is a number of rules (10, 100, 1,000 and 10,000), which are added and then
# scanned for each assessment, or `kept` (100 assessments by turns, each from the cache from its second time on), or
# `overlap` (up to 50 begun over 100 rules, with edits, ticks and outcomes that are kept).
cd "$(dirname "$0")/.." || exit 1

runs=${1:-15}
shift
sessions=${*:-10 100 1000 10000 kept overlap}
work=$(mktemp -d)
trap 'rm -rf "$work"' EXIT

make -s build || exit 1
rustc -O -o "$work/plain" bench/plain_session.rs || exit 1

# lines FORM RULES LINES: a digest is the multiple of an odd number, as wide as 20 bytes
lines() {
  awk -v form="$1" -v rules="$2" -v lines="$3" '
    function digest(n,  text, i) {
      text = ""
      for (i = 0; i < 5; i++) { n = (n * 69069 + 12345) % 4294967296; text = text sprintf("%08x", n) }
      return text
    }
    function subject(n) { return sprintf("execute %s com.example.app%d 0", digest(n), n % 7) }
    BEGIN {
      for (r = 0; r < rules; r++)
        printf "add k%d execute %s %d never - - cdhash H\"%s\"\n", r, (r % 2) ? "allow" : "deny", r % 10, digest(r)
      for (i = 0; i < lines; i++) {
        if (form == "kept") print "assess " subject(i % 100)
        else if (form == "overlap") {
          if (i % 400 == 399) printf "add o%d execute allow %d never - - cdhash H\"%s\"\n", i, i % 10, digest(i % 77)
          else if (i % 20 == 19) printf "tick %d\n", i / 20
          else if (i % 3 == 0) printf "begin %d %s\n", i % 49 + 1, subject(i * 7 % 211)
          else if (i % 3 == 1) printf "finish %d\n", (i + 20) % 49 + 1
          else print "assess " subject(i * 5 % 211)
        }
        else if (i % 2) printf "tick %d\n", i
        else print "assess " subject(i % (2 * rules)) " nocache"
      }
    }'
}

# milliseconds of processor, the program's own and the system's for it: FILE PROGRAM..
milliseconds() {
  local file=$1 TIMEFORMAT="%3U %3S"
  shift
  { time "$@" <"$file" >"$work/out"; } 2>&1 | awk '{ printf "%d\n", ($1 + $2) * 1000 }'
}

median() {
  sort -n "$1" | awk '{ all[NR] = $1 } END { print all[int((NR + 1) / 2)] }'
}

echo "| Session | Lines | Plain Rust loop | gatekeeper | Times as long |"
echo "|---|---|---|---|---|"
for session in $sessions; do
  case $session in
    kept) name="100 kept" count=500000; lines kept 100 "$count" >"$work/session" ;;
    overlap) name=overlap count=200000; lines overlap 100 "$count" >"$work/session" ;;
    *) name="$session rules" count=$((session < 1000 ? 500000 : 200000000 / session))
      lines rules "$session" "$count" >"$work/session" ;;
  esac
  "$work/plain" <"$work/session" >"$work/plain.out" || exit 1
  build/gatekeeper :memory: session <"$work/session" >"$work/proved.out" || exit 1
  cmp "$work/plain.out" "$work/proved.out" || exit 1
  rm -f "$work"/*.ms
  for _ in $(seq "$runs"); do
    milliseconds "$work/session" "$work/plain" >>"$work/plain.ms"
    milliseconds "$work/session" build/gatekeeper :memory: session >>"$work/proved.ms"
  done
  paste "$work/plain.ms" "$work/proved.ms" | awk '{ print $2 / $1 }' >"$work/times.ms"
  awk -v name="$name" -v lines="$count" -v a="$(median "$work/plain.ms")" -v b="$(median "$work/proved.ms")" \
    -v times="$(median "$work/times.ms")" 'BEGIN { printf "| %s | %d | %d ms | %d ms | %.2f |\n", name, lines, a, b, times }'
done
