#!/usr/bin/env bash
# Runs the checks over the worker that the gate has built, or builds it: the program's edge, a file of real messages where
# that is at hand, and random JSON texts, random rows, stores in files, a source of files and one of tables where python3 is. Each check that cannot run says so and is passed over.
set -u
cd "$(dirname "${BASH_SOURCE[0]}")/.." || exit 2

worker=crates/airbyte_worker/out/airbyte_worker
if [ ! -x "$worker" ] && ! (cd crates/airbyte_worker && rt run -- local --messages data/messages.jsonl --catalog data/catalog.json) >/dev/null 2>&1; then
    echo "checks: the worker was not built"
    exit 1
fi
failed=0
checks/ends.sh "$worker" || failed=1
checks/zones.sh "$worker" ../shared/data || failed=1
if command -v python3 >/dev/null 2>&1; then
    python3 checks/random_objects.py "$worker" || failed=1
else
    echo "checks: no python3, so no random objects"
fi
rows=crates/rows_bench/out/rows_bench
if [ -x "$rows" ] && command -v python3 >/dev/null 2>&1; then
    python3 checks/random_values.py "$rows" || failed=1
else
    echo "checks: rows_bench was not built, or no python3, so no random values"
fi
stores=crates/keeper_bench/out/keeper_bench
if [ -x "$stores" ] && command -v python3 >/dev/null 2>&1; then
    python3 checks/stores.py "$stores" || failed=1
else
    echo "checks: keeper_bench was not built, or no python3, so no stores"
fi
source=crates/source_files/out/source_files
if [ -x "$source" ] && command -v python3 >/dev/null 2>&1; then
    python3 checks/source_files.py "$source" "$worker" ../shared/data/zones.csv || failed=1
else
    echo "checks: source_files was not built, or no python3, so no files are read"
fi
tables=crates/source_tables/out/source_tables
if [ -x "$tables" ] && command -v python3 >/dev/null 2>&1; then
    python3 checks/source_tables.py "$tables" || failed=1
else
    echo "checks: source_tables was not built, or no python3, so no tables are read"
fi
exit "$failed"
