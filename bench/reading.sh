#!/usr/bin/env bash
# Times the readers of lines over seven shapes of lines, beside Python's json.loads: MB/s, and instructions a byte
# where valgrind is there.
#
# usage: bench/reading.sh [CALL..]      (without CALL: members, deep, read_view and read_message)
#
# The program is crates/reading_bench/out/reading_bench, or the one that PROGRAM names. SIZE is how many bytes of lines
# are made of each shape (4,000,000), ROUNDS how often they are read (20).
set -euo pipefail
top=$(cd "$(dirname "${BASH_SOURCE[0]}")/.." && pwd)
program=${PROGRAM:-$top/crates/reading_bench/out/reading_bench}
if [ ! -x "$program" ]; then
    echo "no program at $program: run 'rt run' in crates/reading_bench first" >&2
    exit 2
fi
size=${SIZE:-4000000}
rounds=${ROUNDS:-20}
calls=("$@")
if [ ${#calls[@]} = 0 ]; then
    calls=(members deep read_view read_message)
fi
folder=$(mktemp -d)
trap 'rm -rf "$folder"' EXIT

cat > "$folder/shapes.py" <<'PYTHON'
import json
import random
import sys

folder, size = sys.argv[1], int(sys.argv[2])
random.seed(1)
NAMES = ["Ann", "Bo", "Zoë", "李雷", "Olu", "Søren", "Mia", "Iñaki", "Noor", "Tomáš"]


def line(i, data, **layout):
    message = {"type": "RECORD", "record": {"stream": "users", "data": data, "emitted_at": 1714557600000 + i}}
    return json.dumps(message, ensure_ascii=False, **(layout or {"separators": (",", ":")}))


def user(i):
    return {
        "id": i * 7919 % 1000003, "name": f"{NAMES[i % 10]} {i}", "email": f"user{i}@example.org",
        "balance": i % 10000 + i % 100 / 100, "active": i % 3 > 0,
        "updated_at": "2024-%02d-%02dT%02d:00:00Z" % (i % 12 + 1, i % 28 + 1, i % 24),
    }


def nested(i):
    value = i
    for level in range(30):
        value = [value, level] if level % 2 else {"a": value}
    return {"deep": value}


SHAPES = {
    "records": lambda i: line(i, user(i)),
    "spaces": lambda i: line(i, user(i), indent=None, separators=(" , ", " :  ")),
    "numbers": lambda i: line(i, {"n": [random.choice((i, -i, i / 7, 0, 1.5e300 * i, -0.25)) for _ in range(30)]}),
    "long strings": lambda i: line(i, {"text": "a long text without an escape in it. " * 50}),
    "words": lambda i: line(i, {chr(97 + k): (None, True, False)[(i + k) % 3] for k in range(26)}),
    "deep": lambda i: line(i, nested(i)),
    "escapes": lambda i: line(i, {"text": 'a "quoted" \\ text\n\tof \u0001 lines ' * 8, "more": "\b\f\r" * 10}),
}
for name, make in SHAPES.items():
    with open(f"{folder}/{name}", "w", encoding="utf-8", newline="\n") as out:
        written = i = 0
        while written < size:
            made = make(i) + "\n"
            written += len(made.encode())
            out.write(made)
            i += 1
PYTHON
python3 "$folder/shapes.py" "$folder" "$size"

cat > "$folder/python.py" <<'PYTHON'
import json
import sys
import time

lines = open(sys.argv[1], "rb").read().split(b"\n")[:-1]
start = time.monotonic()
for line in lines:
    json.loads(line)
print(time.monotonic() - start)
PYTHON

# instructions ROUNDS CALL FILE: how many instructions so many rounds take
instructions() {
    valgrind --tool=callgrind --callgrind-out-file=/dev/null "$program" "$2" "$3" "$1" 2>&1 >/dev/null |
        awk '/Collected/ { print $NF }'
}

printf '%-14s %-12s %8s %14s\n' shape call MB/s instructions/B
for shape in records spaces numbers 'long strings' words deep escapes; do
    file=$folder/$shape
    bytes=$(wc -c < "$file")
    for call in "${calls[@]}"; do
        nanoseconds=$("$program" "$call" "$file" "$rounds" 2>&1 >/dev/null)
        each=-
        if command -v valgrind >/dev/null; then
            head -c 1000000 "$file" | head -n -1 > "$folder/part"
            once=$(instructions 1 "$call" "$folder/part")
            twice=$(instructions 2 "$call" "$folder/part")
            each=$(awk -v a="$once" -v b="$twice" -v n="$(wc -c < "$folder/part")" 'BEGIN { printf "%.1f", (b - a) / n }')
        fi
        awk -v s="$shape" -v c="$call" -v b="$bytes" -v r="$rounds" -v n="$nanoseconds" -v e="$each" \
            'BEGIN { printf "%-14s %-12s %8.0f %14s\n", s, c, b * r * 1000 / n, e }'
    done
    awk -v s="$shape" -v b="$bytes" -v t="$(python3 "$folder/python.py" "$file")" \
        'BEGIN { printf "%-14s %-12s %8.0f %14s\n", s, "json.loads", b / 1e6 / t, "-" }'
done
