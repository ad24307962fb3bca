#!/usr/bin/env bash
# Times loads of rows into a store in SQLite: rows a second and peak memory of `keeper_bench`, append and deduplicated, beside the
# stock sqlite3 shell that imports the same rows into tables of the same columns, keys and indexes, in one transaction, and a
# plain Python loader that commits the same batches.
#
# usage: bench/keeper.sh [ROWS [BATCH]]
#
# The program is crates/keeper_bench/out/keeper_bench, or the one that PROGRAM names. ROWS is 100,000, and BATCH 1,000; a fifth of
# the rows have the key of another. The last column is the time as a multiple of the shell's.
set -euo pipefail
top=$(cd "$(dirname "${BASH_SOURCE[0]}")/.." && pwd)
program=${PROGRAM:-$top/crates/keeper_bench/out/keeper_bench}
if [ ! -x "$program" ]; then
    echo "no program at $program: run 'rt run' in crates/keeper_bench first" >&2
    exit 2
fi
rows=${1:-100000}
batch=${2:-1000}
folder=$(mktemp -d "${TMPDIR:-/tmp}/keeper.XXXXXX")
trap 'rm -rf "$folder"' EXIT

cat > "$folder/rows.py" <<'PYTHON'
import sys

folder, count = sys.argv[1], int(sys.argv[2])
keys = count * 4 // 5
with open(f"{folder}/lines", "w") as lines, open(f"{folder}/rows.csv", "w") as table:
    for i in range(count):
        body = '{"id":%d,"name":"Ann %d","email":"user%d@example.org","note":"%s"}' % (i % keys, i, i, "x" * 60)
        lines.write(f"#{i % keys}e0; #{i}e0 {body}\n")
        quoted = body.replace('"', '""')
        table.write(f'1,1,{i},0,1,1,01890a5d-ac96-774b-bcce-{i:012},#{i % keys}e0;,#{i}e0,"{quoted}",{{}},"{{""changes"":[]}}"\n')
PYTHON
python3 "$folder/rows.py" "$folder" "$rows"

row='load INTEGER NOT NULL, seq INTEGER NOT NULL, generation INTEGER NOT NULL, extracted_at INTEGER NOT NULL, loaded_at INTEGER NOT NULL, raw_id TEXT NOT NULL, "key" BLOB NOT NULL, cursor BLOB NOT NULL, body TEXT NOT NULL, columns TEXT NOT NULL, meta TEXT NOT NULL'
names='load, seq, generation, extracted_at, loaded_at, raw_id, "key", cursor, body, columns, meta'
head="PRAGMA journal_mode = WAL; PRAGMA synchronous = FULL;
CREATE TABLE raw_rows (pos INTEGER PRIMARY KEY AUTOINCREMENT, stream INTEGER NOT NULL, $row, UNIQUE (load, seq));
CREATE TABLE final_rows (stream INTEGER NOT NULL, side INTEGER NOT NULL, $row, PRIMARY KEY (stream, side, \"key\"));
CREATE TEMP TABLE read (stream, load, seq, generation, extracted_at, loaded_at, raw_id, \"key\", cursor, body, columns, meta);"
append="BEGIN;
.import --csv $folder/rows.csv read
INSERT INTO raw_rows (stream, $names) SELECT stream, $names FROM read;
COMMIT;"
dedup="$append
BEGIN;
INSERT OR REPLACE INTO final_rows (stream, side, $names) SELECT stream, 0, $names FROM raw_rows ORDER BY pos;
COMMIT;"
printf '%s\n' "$head" "$append" > "$folder/append.sql"
printf '%s\n' "$head" "$dedup" > "$folder/dedup.sql"

cat > "$folder/loader.py" <<'PYTHON'
import sqlite3
import sys

store, kind, batch = sys.argv[1], sys.argv[2], int(sys.argv[3])
ROW = "load INTEGER, seq INTEGER, generation INTEGER, extracted_at INTEGER, loaded_at INTEGER, raw_id TEXT, key BLOB, cursor BLOB, body TEXT, columns TEXT, meta TEXT"
base = sqlite3.connect(store, isolation_level=None)
base.execute("PRAGMA journal_mode = WAL")
base.execute("PRAGMA synchronous = FULL")
base.execute(f"CREATE TABLE raw_rows (pos INTEGER PRIMARY KEY AUTOINCREMENT, stream INTEGER, {ROW}, UNIQUE (load, seq))")
base.execute(f"CREATE TABLE final_rows (stream INTEGER, side INTEGER, {ROW}, PRIMARY KEY (stream, side, key))")
rows = []


def commit():
    base.execute("BEGIN")
    base.executemany("INSERT INTO raw_rows VALUES (NULL, 1, 1, ?, 0, 1, 1, ?, ?, ?, ?, '{}', '{\"changes\":[]}')", rows)
    base.execute("COMMIT")
    if kind == "dedup":
        base.execute("BEGIN")
        base.executemany("INSERT OR REPLACE INTO final_rows VALUES (1, 0, 1, ?, 0, 1, 1, ?, ?, ?, ?, '{}', '{\"changes\":[]}')", rows)
        base.execute("COMMIT")
    rows.clear()


for i, line in enumerate(sys.stdin):
    key, cursor, body = line.rstrip("\n").split(" ", 2)
    rows.append((i, f"01890a5d-ac96-774b-bcce-{i:012}", key.encode(), cursor.encode(), body))
    if len(rows) == batch:
        commit()
commit()
PYTHON

# timed FILE WORD..: runs the words, and writes seconds and peak memory in MB
timed() {
    local input=$1
    shift
    /usr/bin/env python3 - "$input" "$@" <<'PYTHON'
import resource, subprocess, sys, time

began = time.monotonic()
with open(sys.argv[1], "rb") as given:
    subprocess.run(sys.argv[2:], stdin=given, stdout=subprocess.DEVNULL, check=True)
print(f"{time.monotonic() - began:.3f} {resource.getrusage(resource.RUSAGE_CHILDREN).ru_maxrss // 1024}")
PYTHON
}

printf '%-8s %-14s %9s %10s %9s %9s\n' load loader seconds rows/s MB "x shell"
for kind in append dedup; do
    shell=
    for loader in shell keeper_bench python; do
        store=$folder/$kind-$loader.db
        case $loader in
            shell) said=$(timed "$folder/$kind.sql" sqlite3 "$store") ;;
            keeper_bench) said=$(timed "$folder/lines" "$program" "$store" "$kind" "$batch") ;;
            python) said=$(timed "$folder/lines" python3 "$folder/loader.py" "$store" "$kind" "$batch") ;;
        esac
        read -r seconds memory <<< "$said"
        shell=${shell:-$seconds}
        awk -v k="$kind" -v l="$loader" -v s="$seconds" -v r="$rows" -v m="$memory" -v b="$shell" \
            'BEGIN { printf "%-8s %-14s %9.2f %10.0f %9d %9.2f\n", k, l, s, r / s, m, s / b }'
        rm -f "$store" "$store-wal" "$store-shm"
    done
done
