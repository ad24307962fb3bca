#!/usr/bin/env bash
# Times how lines become rows, for records of 6, 50 and 200 columns: MB/s of lines, and instructions a byte where valgrind is
# there. The columns stand in the order of the schema, but for the shapes `shuffled` (another order, the same in each record)
# and `sparse` (each column is missing in two records of three).
#
# usage: bench/rows.sh
#
# The program is crates/rows_bench/out/rows_bench, or the one that PROGRAM names. SIZE is how many bytes of lines are made of
# each shape (2,000,000), ROUNDS how often they are prepared (20).
set -euo pipefail
top=$(cd "$(dirname "${BASH_SOURCE[0]}")/.." && pwd)
program=${PROGRAM:-$top/crates/rows_bench/out/rows_bench}
if [ ! -x "$program" ]; then
    echo "no program at $program: run 'rt run' in crates/rows_bench first" >&2
    exit 2
fi
size=${SIZE:-2000000}
rounds=${ROUNDS:-20}
folder=$(mktemp -d)
trap 'rm -rf "$folder"' EXIT

cat > "$folder/shapes.py" <<'PYTHON'
import json
import random
import sys

folder, size = sys.argv[1], int(sys.argv[2])
random.seed(1)
NAMES = ["Ann", "Bo", "Zoë", "李雷", "Olu", "Søren", "Mia", "Iñaki", "Noor", "Tomáš"]
USER = {
    "id": {"type": "integer"}, "name": {"type": ["null", "string"]}, "email": {"type": "string"}, "balance": {"type": "number"},
    "active": {"type": "boolean"}, "updated_at": {"type": "string", "format": "date-time"},
}


def user(i):
    return {
        "id": i * 7919 % 1000003, "name": f"{NAMES[i % 10]} {i}", "email": f"user{i}@example.org",
        "balance": i % 10000 + i % 100 / 100, "active": i % 3 > 0,
        "updated_at": "2024-%02d-%02dT%02d:00:00Z" % (i % 12 + 1, i % 28 + 1, i % 24),
    }


KINDS = [{"type": "integer"}, {"type": "string"}, {"type": "number"}, {"type": "boolean"}]
VALUES = [lambda i, k: i * k, lambda i, k: f"value {i % 1000} of {k}", lambda i, k: i + k / 4, lambda i, k: (i + k) % 2 > 0]


def wide(columns):
    schema = dict(USER)
    schema.update({f"column_{k}": KINDS[k % 4] for k in range(columns - 6)})
    return schema, lambda i: {**user(i), **{f"column_{k}": VALUES[k % 4](i, k) for k in range(columns - 6)}}


def shuffled(columns):
    schema, make = wide(columns)
    order = list(schema)
    random.shuffle(order)
    return schema, lambda i: (lambda data: {name: data[name] for name in order})(make(i))


def sparse(columns):
    schema, make = wide(columns)
    return schema, lambda i: {name: value for k, (name, value) in enumerate(make(i).items()) if (i + k) % 3 == 0}


SHAPES = {
    "6": wide(6), "50": wide(50), "200": wide(200), "shuffled-200": shuffled(200), "sparse-200": sparse(200),
}
for name, (schema, make) in SHAPES.items():
    with open(f"{folder}/{name}.schema", "w", encoding="utf-8") as out:
        json.dump({"type": "object", "properties": schema}, out)
    with open(f"{folder}/{name}.lines", "w", encoding="utf-8", newline="\n") as out:
        written = i = 0
        while written < size:
            record = {"stream": "users", "data": make(i), "emitted_at": 1714557600000 + i}
            made = json.dumps({"type": "RECORD", "record": record}, ensure_ascii=False, separators=(",", ":")) + "\n"
            written += len(made.encode())
            out.write(made)
            i += 1
PYTHON
python3 "$folder/shapes.py" "$folder" "$size"

# instructions ROUNDS SHAPE: how many instructions so many rounds take
instructions() {
    valgrind --tool=callgrind --callgrind-out-file=/dev/null "$program" "$folder/$2.schema" "$folder/part" id updated_at "$1" 2>&1 >/dev/null |
        awk '/Collected/ { print $NF }'
}

printf '%-14s %8s %14s\n' columns MB/s instructions/B
for shape in 6 50 200 shuffled-200 sparse-200; do
    file=$folder/$shape.lines
    nanoseconds=$("$program" "$folder/$shape.schema" "$file" id updated_at "$rounds" 2>&1 >/dev/null)
    each=-
    if command -v valgrind >/dev/null; then
        head -c 500000 "$file" | head -n -1 > "$folder/part"
        once=$(instructions 1 "$shape")
        twice=$(instructions 2 "$shape")
        each=$(awk -v a="$once" -v b="$twice" -v n="$(wc -c < "$folder/part")" 'BEGIN { printf "%.1f", (b - a) / n }')
    fi
    awk -v s="$shape" -v b="$(wc -c < "$file")" -v r="$rounds" -v n="$nanoseconds" -v e="$each" \
        'BEGIN { printf "%-14s %8.0f %14s\n", s, b * r * 1000 / n, e }'
done
