#!/usr/bin/env bash
# usage: bench/store.sh [RUNS [RULES [RECEIPTS]]]
# Times how long the freshly built program takes to load a store: the sqlite3 shell makes a file of RULES (10,000) and
# RECEIPTS (50,000: each rule's own, then edits that disabled one), and `status` loads it, RUNS times. The median of the
# wall clock's milliseconds stands beside that of a new store, in which there is nothing to load. Behind them stand
# 1,000 edits of one session over a new file, the same 1,000 transactions by the program's own SQL library alone and by
# Python's sqlite3, and an import of 10,000 rows into a new file.
cd "$(dirname "$0")/.." || exit 1

runs=${1:-9}
rules=${2:-10000}
receipts=${3:-50000}
work=$(mktemp -d)
trap 'rm -rf "$work"' EXIT

make -s build || exit 1
(cd crates/bench && rt run -- transactions 1 "$work/plain.db") >"$work/log" 2>&1 || { cat "$work/log"; exit 1; }

awk -v rules="$rules" -v receipts="$receipts" '
  function requirement(n) {
    return sprintf("anchor apple generic and certificate leaf[subject.OU] = TEAM%06d and identifier com.example.app%d", n, n)
  }
  function blob(text) { return "CAST('\''" text "'\'' AS BLOB)" }
  BEGIN {
    print "BEGIN;"
    print "CREATE TABLE meta(name TEXT PRIMARY KEY, value INTEGER NOT NULL);"
    print "CREATE TABLE receipt(num INTEGER PRIMARY KEY, edit_key TEXT NOT NULL UNIQUE, content BLOB NOT NULL, rules INTEGER NOT NULL);"
    print "CREATE TABLE authority(id INTEGER PRIMARY KEY, kind INTEGER NOT NULL, allow INTEGER NOT NULL, disabled INTEGER NOT NULL, expires INTEGER, priority INTEGER NOT NULL, flags INTEGER NOT NULL, label BLOB NOT NULL, requirement BLOB NOT NULL);"
    print "INSERT INTO meta VALUES('\''format'\'', 1), ('\''switch'\'', 1);"
    for (n = 1; n <= receipts; n++) {
      content = n <= rules ? sprintf("add execute allow 0 never rule%d - %s", n, requirement(n)) : sprintf("disable id %d any", n % rules + 1)
      printf "INSERT INTO receipt VALUES(%d, '\''key-%08x-%d'\'', %s, 1);\n", n, (n * 2654435761) % 4294967296, n, blob(content)
    }
    for (n = 1; n <= rules; n++)
      printf "INSERT INTO authority VALUES(%d, 1, 1, %d, NULL, 0, 0, %s, %s);\n", n, (receipts - rules) / rules, blob("rule" n), blob(requirement(n))
    print "COMMIT;"
  }' | sqlite3 "$work/full.db" || exit 1

median() {
  sort -n "$1" | awk '{ all[NR] = $1 } END { print all[int((NR + 1) / 2)] }'
}

echo "| Store | Median |"
echo "|---|---|"
for store in new full; do
  for _ in $(seq "$runs"); do
    [ "$store" = full ] || rm -f "$work/new.db"
    begin=$(date +%s%N)
    build/gatekeeper "$work/$store.db" status >"$work/status" || exit 1
    echo $((($(date +%s%N) - begin) / 1000000)) >>"$work/$store.ms"
  done
  [ "$store" = full ] && name="$rules rules, $receipts receipts" || name="a new file"
  echo "| $name | $(median "$work/$store.ms") ms |"
done

seq 1000 | awk '{ printf "add k%d execute allow 0 never - - identifier com.example.app%d\n", $1, $1 }' >"$work/edits"
{
  echo 'key,type,verdict,priority,expires,label,flags,requirement'
  seq 10000 | awk '{ printf "k%d,execute,allow,0,never,,-,identifier com.example.app%d\n", $1, $1 }'
} >"$work/rules.csv"

same_by_python() {
  python3 - "$work/plain.db" <<'PYTHON'
import sqlite3, sys
db = sqlite3.connect(sys.argv[1], isolation_level=None)
db.execute("PRAGMA journal_mode = WAL")
db.execute("CREATE TABLE receipt(num INTEGER PRIMARY KEY, edit_key TEXT NOT NULL UNIQUE, content BLOB NOT NULL, rules INTEGER NOT NULL)")
db.execute("CREATE TABLE authority(id INTEGER PRIMARY KEY, kind INTEGER NOT NULL, allow INTEGER NOT NULL, disabled INTEGER NOT NULL, expires INTEGER, priority INTEGER NOT NULL, flags INTEGER NOT NULL, label BLOB NOT NULL, requirement BLOB NOT NULL)")
for n in range(1, 1001):
    need = b"identifier com.example.app%d" % n
    db.execute("BEGIN")
    db.execute("INSERT INTO receipt VALUES(?, ?, ?, 1)", (n, "k%d" % n, b"add execute allow 0 never - - " + need))
    db.execute("INSERT INTO authority VALUES(?, 1, 1, 0, NULL, 0, 0, ?, ?)", (n, b"", need))
    db.execute("COMMIT")
PYTHON
}

# timed NAME COMMAND..: the median of the wall clock's milliseconds, over new files
timed() {
  local name=$1 begin
  shift
  rm -f "$work/timed.ms"
  for _ in $(seq "$runs"); do
    rm -f "$work"/made.db* "$work"/plain.db*
    begin=$(date +%s%N)
    "$@" || exit 1
    echo $((($(date +%s%N) - begin) / 1000000)) >>"$work/timed.ms"
  done
  echo "| $name | $(median "$work/timed.ms") ms |"
}

same_by_sql() { crates/bench/out/bench transactions 1000 "$work/plain.db" >"$work/replies"; }
edit_by_session() { build/gatekeeper "$work/made.db" session <"$work/edits" >"$work/replies"; }
import_rules() { build/gatekeeper "$work/made.db" import "$work/rules.csv" >"$work/replies"; }

timed '1,000 edits of a session' edit_by_session
timed 'the same by SQL alone' same_by_sql
command -v python3 >/dev/null && timed "the same by Python's sqlite3" same_by_python
timed 'an import of 10,000 rows' import_rules
