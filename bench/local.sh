#!/usr/bin/env bash
# Times the worker's command `local` on records of one stream, with a state after every 1,000.
#
# usage: bench/local.sh [N]      (without N: 10,000, 100,000 and 1,000,000 records)
#
# The program is crates/airbyte_worker/out/airbyte_worker, or the one that PROGRAM names.
set -euo pipefail
top=$(cd "$(dirname "${BASH_SOURCE[0]}")/.." && pwd)
program=${PROGRAM:-$top/crates/airbyte_worker/out/airbyte_worker}
if [ ! -x "$program" ]; then
    echo "no program at $program: run 'rt run' in crates/airbyte_worker first" >&2
    exit 2
fi
folder=$(mktemp -d)
trap 'rm -rf "$folder"' EXIT

# make_messages N: the lines; make_messages --catalog: the catalog
make_messages() {
    local maker=$top/../shared/tools/made_messages.py
    if [ -f "$maker" ]; then
        python3 "$maker" "$1"
    else
        python3 - "$1" <<'PYTHON'
import sys

NAMES = ["Ann", "Bo", "Zoë", "李雷", "Olu", "Søren", "Mia", "Iñaki", "Noor", "Tomáš"]
sys.stdout.reconfigure(encoding="utf-8", newline="\n")
if sys.argv[1] == "--catalog":
    print(
        '{"streams":[{"stream":{"name":"users","json_schema":{"type":"object"},"supported_sync_modes":["incremental"]},'
        '"sync_mode":"incremental","destination_sync_mode":"append"}]}'
    )
    sys.exit()
count, since = int(sys.argv[1]), 0
for i in range(count):
    key = i * 7919 % count
    sys.stdout.write(
        '{"type":"RECORD","record":{"stream":"users","data":{"id":%d,"name":"%s %d","email":"user%d@example.org",'
        '"balance":%d.%02d,"active":%s,"updated_at":"2024-%02d-%02dT%02d:00:00Z"},"emitted_at":%d}}\n'
        % (
            key, NAMES[i % 10], i, key, i % 10000, i % 100, "true" if i % 3 else "false",
            i % 12 + 1, i % 28 + 1, i % 24, 1714557600000 + i,
        )
    )
    since += 1
    if since == 1000 or i + 1 == count:
        sys.stdout.write(
            '{"type":"STATE","state":{"type":"STREAM","stream":{"stream_descriptor":{"name":"users"},'
            '"stream_state":{"row":%d}},"sourceStats":{"recordCount":%d}}}\n' % (i + 1, since)
        )
        since = 0
PYTHON
    fi
}

# One run: its exit status, seconds and peak memory in KiB.
cat > "$folder/timed.py" <<'PYTHON'
import resource
import subprocess
import sys
import time

with open(sys.argv[1], "wb") as output:
    start = time.monotonic()
    status = subprocess.run(sys.argv[2:], stdout=output).returncode
    seconds = time.monotonic() - start
print(status, f"{seconds:.3f}", resource.getrusage(resource.RUSAGE_CHILDREN).ru_maxrss)
PYTHON

make_messages --catalog > "$folder/catalog.json"
printf '%10s %9s %9s %8s %15s\n' records MB seconds MB/s 'peak memory MB'
for count in "${@:-10000 100000 1000000}"; do
    for records in $count; do
        make_messages "$records" > "$folder/messages.jsonl"
        size=$(wc -c < "$folder/messages.jsonl")
        read -r status seconds peak < <(
            python3 "$folder/timed.py" "$folder/output" "$program" local --messages "$folder/messages.jsonl" --catalog "$folder/catalog.json"
        )
        if [ "$status" != 0 ] || [ "$(tail -n 1 "$folder/output")" != 'status 0 Ok' ] ||
            [ "$(grep -c '^row ' "$folder/output")" != "$records" ]; then
            echo "the run on $records records went wrong: exit status $status" >&2
            exit 1
        fi
        awk -v r="$records" -v b="$size" -v s="$seconds" -v p="$peak" 'BEGIN {
            printf "%10d %9.1f %9.3f %8.1f %15.1f\n", r, b / 1e6, s, b / 1e6 / (s > 0 ? s : 0.001), p * 1024 / 1e6
        }'
        rm -f "$folder/output"
    done
done
