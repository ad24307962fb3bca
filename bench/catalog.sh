#!/usr/bin/env bash
# Times read_configured over catalogs of 64, 512 and 4,096 streams of 2 KB each, beside the cut of the same text into its
# members (one pass), and into these and the elements of its array (two passes), and how many streams are found by their
# ids in a second. Where valgrind is there, instructions a byte too, which a busy machine does not change.
#
# usage: bench/catalog.sh
#
# The program is crates/catalog_bench/out/catalog_bench, or the one that PROGRAM names. ROUNDS is how often a catalog of
# 4,096 streams is read (5); smaller ones are read as much oftener. Each time is the best of TIMES runs (3).
set -euo pipefail
top=$(cd "$(dirname "${BASH_SOURCE[0]}")/.." && pwd)
program=${PROGRAM:-$top/crates/catalog_bench/out/catalog_bench}
if [ ! -x "$program" ]; then
    echo "no program at $program: run 'rt run' in crates/catalog_bench first" >&2
    exit 2
fi
rounds=${ROUNDS:-5}
times=${TIMES:-3}
folder=$(mktemp -d)
trap 'rm -rf "$folder"' EXIT

cat > "$folder/catalogs.py" <<'PYTHON'
import json
import sys

folder, counts = sys.argv[1], [int(word) for word in sys.argv[2:]]
TYPES = [
    {"type": ["null", "integer"]}, {"type": ["null", "string"]}, {"type": ["null", "number"], "airbyte_type": "big_number"},
    {"type": ["null", "string"], "format": "date-time", "airbyte_type": "timestamp_with_timezone"},
    {"type": ["null", "object"], "properties": {"street": {"type": "string"}, "zip": {"type": "string"}}},
]


def entry(i):
    made = {
        "stream": {
            "name": f"table_{i}", "namespace": "public",
            "json_schema": {"$schema": "http://json-schema.org/draft-07/schema#", "type": "object", "properties": {}},
            "supported_sync_modes": ["full_refresh", "incremental"], "source_defined_cursor": True,
            "default_cursor_field": ["updated_at"], "source_defined_primary_key": [["id"]], "is_resumable": True,
        },
        "sync_mode": "incremental", "destination_sync_mode": "append_dedup", "cursor_field": ["updated_at"],
        "primary_key": [["id"]], "generation_id": 4, "minimum_generation_id": 0, "sync_id": 17,
    }
    columns = 0
    while len(json.dumps(made, separators=(",", ":"))) < 2000:
        made["stream"]["json_schema"]["properties"][f"column_{columns}"] = TYPES[(i + columns) % len(TYPES)]
        columns += 1
    return made


for count in counts:
    with open(f"{folder}/{count}", "w") as out:
        json.dump({"streams": [entry(i) for i in range(count)]}, out, separators=(",", ":"))
PYTHON
counts=(64 512 4096)
python3 "$folder/catalogs.py" "$folder" "${counts[@]}"

# best CALL FILE ROUNDS: the least nanoseconds of a round
best() {
    for _ in $(seq "$times"); do
        "$program" "$1" "$2" "$3" 2>&1 >/dev/null
    done | sort -n | head -n 1 | awk -v r="$3" '{ printf "%.0f", $1 / r }'
}

# each CALL FILE BYTES: the instructions of a round, by byte
each() {
    if ! command -v valgrind >/dev/null; then
        echo -
        return
    fi
    for count in 1 2; do
        valgrind --tool=callgrind --callgrind-out-file=/dev/null "$program" "$1" "$2" "$count" 2>&1 >/dev/null |
            awk '/Collected/ { print $NF }'
    done | awk -v b="$3" 'NR == 1 { once = $1 } NR == 2 { printf "%.1f", ($1 - once) / b }'
}

row='%8s %6s %9s %9s %9s %9s %10s %9s %11s %12s %9s %9s\n'
# shellcheck disable=SC2059
printf "$row" streams MB 'cut ms' 'cut MB/s' 'both ms' 'read ms' 'read MB/s' read/cut read/both finds/s 'cut i/B' 'read i/B'
for count in "${counts[@]}"; do
    file=$folder/$count
    most=$((rounds * 4096 / count))
    cut=$(best members "$file" "$most")
    both=$(best elements "$file" "$most")
    read=$(best read "$file" "$most")
    find=$(best find "$file" $((most * 20)))
    bytes=$(wc -c < "$file")
    awk -v row="$row" -v n="$count" -v b="$bytes" -v i="$(each members "$file" "$bytes")" -v j="$(each read "$file" "$bytes")" -v c="$cut" -v e="$both" -v r="$read" -v f="$find" 'BEGIN {
        printf row, n, sprintf("%.2f", b / 1e6), sprintf("%.3f", c / 1e6), sprintf("%.0f", b * 1000 / c), sprintf("%.3f", e / 1e6),
            sprintf("%.3f", r / 1e6), sprintf("%.0f", b * 1000 / r), sprintf("%.2f", r / c), sprintf("%.2f", r / e), sprintf("%.0f", n * 1e9 / f), i, j
    }'
done
