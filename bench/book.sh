#!/usr/bin/env bash
# Times the book of a load over a dock that keeps nothing, for 1, 16 and 256 streams: records/s in all, and of each kind of call the
# nanoseconds for a record. The lines, records of some 220 bytes and a state behind each thousand, come through standard input, whose
# reading counts for `accept`.
#
# usage: bench/book.sh
#
# The program is crates/book_bench/out/book_bench, or the one that PROGRAM names. RECORDS is how many records are taken (300,000).
set -euo pipefail
top=$(cd "$(dirname "${BASH_SOURCE[0]}")/.." && pwd)
program=${PROGRAM:-$top/crates/book_bench/out/book_bench}
if [ ! -x "$program" ]; then
    echo "no program at $program: run 'rt run' in crates/book_bench first" >&2
    exit 2
fi
records=${RECORDS:-300000}
folder=$(mktemp -d)
trap 'rm -rf "$folder"' EXIT

cat > "$folder/lines.py" <<'PYTHON'
import json
import sys

folder, streams, records = sys.argv[1], int(sys.argv[2]), int(sys.argv[3])
TYPES = {
    "id": {"type": "integer"}, "name": {"type": "string"}, "email": {"type": "string"}, "balance": {"type": "number"},
    "active": {"type": "boolean"}, "updated_at": {"type": "string", "format": "date-time"},
}


def written(value):
    return json.dumps(value, ensure_ascii=False, separators=(",", ":")) + "\n"


def entry(name):
    stream = {"name": name, "json_schema": {"type": "object", "properties": TYPES}}
    return {"stream": stream, "sync_mode": "incremental", "destination_sync_mode": "append"}


names = [f"stream_{number}" for number in range(streams)]
with open(f"{folder}/catalog.json", "w", encoding="utf-8") as out:
    out.write(written({"streams": [entry(name) for name in names]}))
with open(f"{folder}/lines.jsonl", "w", encoding="utf-8", newline="\n") as out:
    for i in range(records):
        data = {
            "id": i, "name": f"Zoë {i}", "email": f"user{i}@example.org", "balance": i % 10000 + 0.25, "active": i % 3 > 0,
            "updated_at": "2024-%02d-%02dT%02d:00:00Z" % (i % 12 + 1, i % 28 + 1, i % 24),
        }
        record = {"stream": names[i % streams], "data": data, "emitted_at": 1714557600000 + i}
        out.write(written({"type": "RECORD", "record": record}))
        if (i + 1) % 1000 == 0:
            stream = {"stream_descriptor": {"name": names[i // 1000 % streams]}, "stream_state": {"row": i}}
            out.write(written({"type": "STATE", "state": {"type": "STREAM", "stream": stream}}))
PYTHON

printf '%-8s %12s %10s %10s %10s %10s %8s\n' streams records/s accept pick prepare put echoes
for streams in 1 16 256; do
    python3 "$folder/lines.py" "$folder" "$streams" "$records"
    figures=$("$program" "$folder/catalog.json" < "$folder/lines.jsonl" 2>&1 > "$folder/echoes")
    awk -v s="$streams" -v e="$(wc -l < "$folder/echoes")" \
        '{ printf "%-8s %12.0f %10.0f %10.0f %10.0f %10.0f %8d\n", s, $1 * 1e9 / ($2 + $3 + $4 + $5), $2 / $1, $3 / $1, $4 / $1, $5 / $1, e }' <<< "$figures"
done
