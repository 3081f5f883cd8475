#!/bin/sh
# A facts file of 100,000 rows, read by the desk's crate and by a plain Rust program.
# usage: bench/facts.sh [TIMES]
set -e
top=$(cd "$(dirname "$0")/.." && pwd)
times=${1:-5}
folder=$(mktemp -d)
trap 'rm -rf "$folder"' EXIT
rustc -O -o "$folder/plain" "$top/bench/plain_facts.rs"
# 20,000 hashes with five rows each: a flag, two certificates, a field and a version
awk 'BEGIN {
    print "cdhash,scope,slot,key,kind,value"
    for (n = 0; n < 20000; n++) {
        hash = sprintf("%08x%032x", (n * 2654435761) % 4294967296, n)
        print hash ",flag,,anchor-apple-generic,,"
        printf "%s,cert,0,,hash,%040x\n", hash, n
        printf "%s,cert,1,,hash,%040x\n", hash, n + 1
        printf "%s,cert-field,0,subject.OU,text,TEAM%06d\n", hash, n
        printf "%s,info,,Version,text,10.%d\n", hash, n % 100
    }
}' > "$folder/facts.csv"
(cd "$top/crates/bench" && rt run -- facts "$folder/facts.csv" 1 > "$folder/log" 2>&1) || { cat "$folder/log"; exit 1; }
for round in 1 2 3 4 5; do
    echo "round $round, load $(cut -d' ' -f1 /proc/loadavg)"
    "$folder/plain" "$folder/facts.csv" "$times" 2> /dev/null | awk '{ printf "  plain Rust: %.0f ms a reading\n", $4 / $3 / 1000000 }'
    "$top/crates/bench/out/bench" facts "$folder/facts.csv" "$times" time | awk '{ printf "  code_facts: %.0f ms a reading\n", $4 / $3 / 1000000 }'
done
