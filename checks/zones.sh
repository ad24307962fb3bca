#!/usr/bin/env bash
# usage: zones.sh WORKER FOLDER    the table of time zones as messages: 312 records, with a state after every 100
set -u
worker=$1 folder=$2
if [ ! -f "$folder/zones.jsonl" ] || [ ! -f "$folder/zones.catalog.json" ]; then
    echo "zones: no such file here, passed over"
    exit 0
fi
said=$(mktemp)
bodies=$(mktemp)
trap 'rm -f "$said" "$bodies"' EXIT
"$worker" local --messages "$folder/zones.jsonl" --catalog "$folder/zones.catalog.json" >"$said"
status=$?
# each body as it stands in its line, in the file's order
sed -n 's/^{"type":"RECORD","record":{"stream":"zones","data":\(.*\),"emitted_at":[0-9]*}}$/row \1/p' "$folder/zones.jsonl" >"$bodies"
if [ "$status" -eq 0 ] &&
    [ "$(grep -c '^saved ' "$said")" -eq 4 ] &&
    [ "$(wc -l <"$bodies")" -eq 312 ] &&
    grep -qx 'attempt 1: 0 Ok' "$said" &&
    grep -qx 'table zones rows 312' "$said" &&
    [ "$(tail -n 1 "$said")" = 'status 0 Ok' ] &&
    grep '^row ' "$said" | cmp -s - "$bodies"; then
    echo "zones: 312 rows, 4 saved states"
else
    echo "zones: the worker said something else, with exit status $status"
    exit 1
fi
