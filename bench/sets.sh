#!/usr/bin/env bash
# Times `put` of saved sets with 16, 256 and 4,096 streams: states put in a second. The growth has to be flat, since a stream
# is found by its id.
#
# usage: bench/sets.sh
#
# The program is crates/sets_bench/out/sets_bench, or the one that PROGRAM names. PUTS is how many states are put in each
# run (1,000,000); each figure is the best of TIMES runs (3).
set -euo pipefail
top=$(cd "$(dirname "${BASH_SOURCE[0]}")/.." && pwd)
program=${PROGRAM:-$top/crates/sets_bench/out/sets_bench}
if [ ! -x "$program" ]; then
    echo "no program at $program: run 'rt run' in crates/sets_bench first" >&2
    exit 2
fi
puts=${PUTS:-1000000}
times=${TIMES:-3}
printf '%8s %14s %10s\n' streams puts/s ns/put
for streams in 16 256 4096; do
    rounds=$(((puts + streams - 1) / streams))
    best=
    for _ in $(seq "$times"); do
        took=$("$program" "$streams" "$rounds" 2>&1 >/dev/null)
        if [ -z "$best" ] || [ "$took" -lt "$best" ]; then
            best=$took
        fi
    done
    awk -v s="$streams" -v n="$((streams * rounds))" -v t="$best" 'BEGIN { printf "%8d %14.0f %10.1f\n", s, n * 1e9 / t, t / n }'
done
