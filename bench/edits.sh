#!/usr/bin/env bash
# usage: bench/edits.sh [RUNS]
# Times edits in sessions of the freshly built program: by a rule's number, by a label, removals by label with a rule
# added for each, and edits of all kinds by turns, with 100 rules and with 10,000 rules and 50,000 receipts. Prints as a
# table the microseconds of processor time that one edit takes, the median of RUNS, and how many times as long it takes
# with many rules.
cd "$(dirname "$0")/.." || exit 1

runs=${1:-7}
work=$(mktemp -d)
trap 'rm -rf "$work"' EXIT

make -s build || exit 1

# session RULES RECEIPTS KIND EDITS: the rules, other edits up to so many receipts, and then the edits that are measured
session() {
  awk -v rules="$1" -v receipts="$2" -v kind="$3" -v edits="$4" '
    function add(key, label) {
      printf "add %s execute allow 1 never com.example.app%d - cdhash H\"%040d\"\n", key, label, label
    }
    BEGIN {
      for (r = 0; r < rules; r++) add("r" r, r)
      for (r = rules; r < receipts; r++) printf "switch s%d on\n", r
      for (i = 0; i < edits; i++) {
        which = (i * 7919) % rules
        pair = 2 * ((int(i / 6) * 7919) % (rules / 2))
        if (kind == "number") printf "%s e%d id %d any\n", (i % 2) ? "enable" : "disable", i, which + 1
        else if (kind == "label") printf "%s e%d label com.example.app%d any\n", (i % 2) ? "enable" : "disable", i, which
        else if (kind == "turns") {
          if (i % 6 == 0) printf "disable e%d id %d any\n", i, pair + 1
          else if (i % 6 == 1) printf "remove e%d label com.example.app%d any\n", i, pair + 1
          else if (i % 6 == 2) printf "expire e%d label com.example.app%d any never\n", i, pair
          else if (i % 6 == 3) add("e" i, pair + 1)
          else if (i % 6 == 4) printf "enable e%d label com.example.app%d any\n", i, pair
          else printf "switch e%d on\n", i
        }
        else if (i % 2) add("e" i, (int(i / 2) * 7919) % rules)
        else printf "remove e%d label com.example.app%d any\n", i, (int(i / 2) * 7919) % rules
      }
    }'
}

# microseconds of processor, the program's own and the system's for it: FILE
microseconds() {
  local TIMEFORMAT="%3U %3S"
  { time build/gatekeeper :memory: session <"$1" >"$work/out"; } 2>&1 | awk '{ printf "%d\n", ($1 + $2) * 1000000 }'
}

median() {
  sort -n "$1" | awk '{ all[NR] = $1 } END { print all[int((NR + 1) / 2)] }'
}

# for_each_edit RULES RECEIPTS KIND EDITS
for_each_edit() {
  session "$1" "$2" "$3" 0 >"$work/before"
  session "$1" "$2" "$3" "$4" >"$work/all"
  rm -f "$work/microseconds"
  for _ in $(seq "$runs"); do
    echo "$(microseconds "$work/before") $(microseconds "$work/all")" | awk -v n="$4" '{ print ($2 - $1) / n }' >>"$work/microseconds"
  done
  ! grep -q refused "$work/out" || { echo "an edit was refused" >&2; exit 1; }
  median "$work/microseconds"
}

echo "| Edits | 100 rules | 10,000 rules | Times as long |"
echo "|---|---|---|---|"
for kind in number label removal turns; do
  few=$(for_each_edit 100 100 "$kind" 40000)
  many=$(for_each_edit 10000 50000 "$kind" 40000)
  awk -v kind="$kind" -v a="$few" -v b="$many" 'BEGIN { printf "| by %s | %.1f us | %.1f us | %.1f |\n", kind, a, b, b / a }'
done
