#!/usr/bin/env bash
# Times a source of CSV files beside Python's csv module, which writes the same lines: rows a second, MB of CSV a second and peak
# memory.
#
# usage: bench/sources.sh [ROWS ..]
#
# The program is crates/source_files/out/source_files, or the one that PROGRAM names. Without ROWS there are runs of 10,000, 100,000
# and 1,000,000 rows of about 100 bytes.
set -euo pipefail
top=$(cd "$(dirname "${BASH_SOURCE[0]}")/.." && pwd)
program=${PROGRAM:-$top/crates/source_files/out/source_files}
if [ ! -x "$program" ]; then
    echo "no program at $program: run 'rt run' in crates/source_files first" >&2
    exit 2
fi
[ $# -gt 0 ] || set -- 10000 100000 1000000
folder=$(mktemp -d "${TMPDIR:-/tmp}/sources.XXXXXX")
trap 'rm -rf "$folder"' EXIT

cat > "$folder/made.py" <<'PYTHON'
import csv
import sys

writer = csv.writer(sys.stdout, lineterminator="\n")
writer.writerow(["id", "name", "email", "note"])
for i in range(int(sys.argv[1])):
    writer.writerow([i, f"Ann {i}", f"user{i}@example.org", 'a "note", of ' + "x" * 50])
PYTHON

cat > "$folder/source.py" <<'PYTHON'
import csv
import json
import sys

path, every = sys.argv[1], 1000
write = sys.stdout.write


def dump(value):
    return json.dumps(value, ensure_ascii=False, separators=(",", ":"))


def status(word):
    write(dump({"type": "TRACE", "trace": {"type": "STREAM_STATUS", "emitted_at": 0, "stream_status": {"stream_descriptor": {"name": "rows"}, "status": word}}}) + "\n")


def state(row, count):
    write(dump({"type": "STATE", "state": {"type": "STREAM", "stream": {"stream_descriptor": {"name": "rows"}, "stream_state": {"row": row}}, "sourceStats": {"recordCount": count}}}) + "\n")
    sys.stdout.flush()


status("STARTED")
with open(path, encoding="utf-8", newline="") as file:
    rows = list(csv.DictReader(file))
since = 0
for number, row in enumerate(rows, start=1):
    write(dump({"type": "RECORD", "record": {"stream": "rows", "data": row, "emitted_at": 0}}) + "\n")
    since += 1
    if since == every or number == len(rows):
        state(number, since)
        since = 0
status("COMPLETE")
PYTHON

cat > "$folder/timed.py" <<'PYTHON'
import os
import subprocess
import sys
import time

rows, size, name, words = int(sys.argv[1]), int(sys.argv[2]), sys.argv[3], sys.argv[4:]
best, peak = None, 0
for _ in range(3):
    begun = time.monotonic()
    child = subprocess.Popen(words, stdout=subprocess.DEVNULL)
    _, status, used = os.wait4(child.pid, 0)
    took = time.monotonic() - begun
    if status != 0:
        sys.exit(f"{name} ended with {status}")
    best = took if best is None else min(best, took)
    peak = used.ru_maxrss / 1024
print(f"{rows:>9} {name:<14} {best:>8.3f} s {rows / best:>12,.0f} rows/s {size / 1e6 / best:>8.1f} MB/s {peak:>8.0f} MB")
PYTHON

cat > "$folder/catalog.json" <<'JSON'
{"streams":[{"stream":{"name":"rows","json_schema":{"type":"object"}},"sync_mode":"incremental","destination_sync_mode":"append"}]}
JSON
for rows in "$@"; do
    python3 "$folder/made.py" "$rows" > "$folder/rows.csv"
    printf '{"files":[{"name":"rows","path":"%s"}]}' "$folder/rows.csv" > "$folder/config.json"
    size=$(stat -c %s "$folder/rows.csv")
    python3 "$folder/timed.py" "$rows" "$size" source_files "$program" read --config "$folder/config.json" --catalog "$folder/catalog.json"
    python3 "$folder/timed.py" "$rows" "$size" "Python csv" python3 "$folder/source.py" "$folder/rows.csv"
done

# The list of a table's rows beside a sort of the texts of their keys alone.
tables=${TABLES:-$top/crates/table_bench/out/table_bench}
if [ ! -x "$tables" ]; then
    echo "no program at $tables: run 'rt run' in crates/table_bench for the list of a table's rows" >&2
    exit 0
fi
printf '\n%-10s %12s %12s %8s\n' rows 'list ms' 'sort ms' ratio
for rows in 10000 100000 1000000; do
    "$tables" "$rows" 2>&1 >/dev/null | awk -v n="$rows" '{ printf "%-10s %12.1f %12.1f %8.1f\n", n, $1 / 1e6, $2 / 1e6, $1 / $2 }'
done
