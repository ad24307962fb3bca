#!/usr/bin/env python3
"""Compares the rows that `rows_bench` prepares of random records with those that Python makes of them.

usage: random_values.py PROGRAM [GROUPS [SEED]]

Each group is a random schema, a key, a cursor, and some dozens of lines: records, and lines that are none. Numbers are read by
`decimal`, texts by `json`, raw ids come from `uuid`. Strings of instants are of the forms that both readers have: RFC 3339 with
at most nine digits of a second.
"""
import datetime
import decimal
import json
import os
import random
import re
import subprocess
import sys
import tempfile
import uuid

LOAD, MOMENT, GENERATION = 7, 1714557600000, 3
NAMESPACE = uuid.UUID("a1b2c3d4-0000-4000-8000-000000000001")
BLANKS = " \t\r"
DECODER = json.JSONDecoder(parse_int=str, parse_float=str)
STRING = re.compile(r'"(?:[^"\\]|\\.)*"|[ \t\r\n]+|[^" \t\r\n]+')
LITERAL = re.compile(r"-?\d+(?:\.(\d+))?(?:[eE]([+-]?\d+))?\Z")
INSTANT = re.compile(r"(\d{4}-\d\d-\d\dT\d\d:\d\d:\d\d)(?:\.(\d{1,9}))?(Z|[+-]\d\d:\d\d)\Z")
EPOCH = datetime.datetime(1970, 1, 1, tzinfo=datetime.timezone.utc)


# JSON texts in place.


def skip(text, at):
    while at < len(text) and text[at] in BLANKS + "\n":
        at += 1
    return at


def members(text):
    """The members of an object: each name, decoded, and its value's text. None where the text is no object."""
    at = skip(text, 0)
    if text[at : at + 1] != "{":
        return None
    found, at = [], skip(text, at + 1)
    while text[at] != "}":
        name, at = DECODER.raw_decode(text, at)
        start = skip(text, skip(text, at) + 1)
        _, end = DECODER.raw_decode(text, start)
        found.append((name, text[start:end]))
        at = skip(text, end)
        if text[at] == ",":
            at = skip(text, at + 1)
    return found


def elements(text):
    """The texts of an array's elements; None where the text is no array."""
    at = skip(text, 0)
    if text[at : at + 1] != "[":
        return None
    found, at = [], skip(text, at + 1)
    while text[at] != "]":
        _, end = DECODER.raw_decode(text, at)
        found.append(text[at:end])
        at = skip(text, end)
        if text[at] == ",":
            at = skip(text, at + 1)
    return found


def held(text, name):
    """What the last member of this name holds; None where there is none."""
    for other, value in reversed(members(text) or []):
        if other == name:
            return value
    return None


def squeezed(text):
    return "".join(piece for piece in STRING.findall(text) if piece.strip(BLANKS + "\n"))


def quoted(name):
    return json.dumps(name, ensure_ascii=False)


# Values.


def is_number(text):
    return text[0] in "-0123456789"


def normal(text):
    """The sign, the digits and the exponent of a literal's value, without zeros at the end."""
    fraction, exponent = LITERAL.match(text).groups()
    mantissa = decimal.Decimal(re.split("[eE]", text)[0])
    sign, digits, _ = mantissa.as_tuple()
    digits = "".join(map(str, digits)).lstrip("0")
    if not digits:
        return 0, 0, 0
    kept = digits.rstrip("0")
    return sign, int(kept), int(exponent or 0) - len(fraction or "") + len(digits) - len(kept)


def number_text(text):
    sign, digits, exponent = normal(text)
    if len(str(digits)) > 38 or abs(exponent) > 400:
        return None
    return f"#{'-' if sign else ''}{digits}e{exponent}"


def whole_text(text):
    """A number's plain decimal, None where it is no whole number of 64 bits."""
    sign, digits, exponent = normal(text)
    if exponent < 0 or exponent > 20:
        return None
    value = (-1 if sign else 1) * digits * 10**exponent
    return str(value) if -(2**63) <= value < 2**63 else None


def nanoseconds(text):
    found = INSTANT.match(text)
    if not found:
        return None
    second, fraction, zone = found.groups()
    moment = datetime.datetime.fromisoformat(second + zone.replace("Z", "+00:00")) - EPOCH
    return (moment.days * 86400 + moment.seconds) * 10**9 + int((fraction or "").ljust(9, "0"))


def counted(mark, text):
    return f"{mark}{len(text.encode())}:{text}"


def value_text(text, instants):
    """The text of the value that a JSON text stands for; None is a missing one."""
    if text is None or text == "null":
        return "n"
    if text in ("true", "false"):
        return text[0]
    if is_number(text):
        return number_text(text) or counted("?", text)
    if text[0] == '"':
        name = json.loads(text)
        moment = nanoseconds(name) if instants else None
        return counted('"', name) if moment is None else f"@{moment}"
    return counted("?", squeezed(text))


# Columns and rows.


def kind_of(schema):
    if not isinstance(schema, dict):
        return "json"
    types = schema.get("type")
    types = {types} if isinstance(types, str) else {t for t in types if isinstance(t, str)} - {"null"} if isinstance(types, list) else set()
    if types == {"string"}:
        return "instant" if schema.get("format") == "date-time" else "text"
    if types == {"boolean"}:
        return "bool"
    if types == {"integer"}:
        return "whole"
    if types == {"number"}:
        return "whole" if schema.get("airbyte_type") == "integer" else "number"
    return "json"


def columns_of(schema):
    columns = {}
    for name, text in members(held(schema, "properties")):
        columns.pop(name, None)
        columns[name] = kind_of(json.loads(text))
    return columns


def typed(kind, text):
    """What a column has of a value, None where it is nulled."""
    if text is None or text == "null":
        return "null"
    if kind == "whole":
        return whole_text(text) if is_number(text) else None
    fits = {
        "text": text[0] == '"',
        "instant": text[0] == '"',
        "bool": text in ("true", "false"),
        "number": is_number(text),
        "json": True,
    }
    return text if fits[kind] else None


def text_along(body, path, columns):
    instants = len(path) == 1 and columns.get(path[0]) == "instant"
    for name in path:
        body = held(body, name)
        if body is None:
            break
    return value_text(body, instants)


def row_of(seq, body, emitted_at, meta, columns, key, cursor):
    changes = elements(held(meta, "changes") or "") if meta and members(meta) else None
    changes = list(changes or [])
    parts = []
    for name, kind in columns.items():
        text = typed(kind, held(body, name))
        if text is None:
            changes.append(f'{{"field":{quoted(name)},"change":"NULLED","reason":"DESTINATION_TYPECAST_ERROR"}}')
        parts.append(f"{quoted(name)}:{'null' if text is None else text}")
    return (
        (LOAD, seq, GENERATION, emitted_at, MOMENT),
        str(uuid.uuid5(NAMESPACE, f"{LOAD}:{seq}")),
        "".join(text_along(body, path, columns) + ";" for path in key),
        text_along(body, cursor, columns) if cursor else "n",
        body,
        "{" + ",".join(parts) + "}",
        '{"changes":[' + ",".join(changes) + "]}",
    )


# Random records.

NAMES = ["a", "b", "id", "k", "é", "a b", 'q"', "back\\slash", "", "\u0001", "李", "v"]
STEPS = ["a", "b", "id", "k", "é", "v"]
PROPERTIES = [
    {"type": "string"}, {"type": ["null", "string"]}, {"type": "string", "format": "date-time"}, {"type": ["string", "null"], "format": "date-time"},
    {"type": "boolean"}, {"type": "integer"}, {"type": ["integer", "null"]}, {"type": "number"}, {"type": "number", "airbyte_type": "integer"},
    {"type": "object"}, {"type": "array"}, {"type": ["string", "integer"]}, {"type": "null"}, {"type": []}, {}, True, {"type": "number", "format": "date-time"},
    {"type": ["string", 5, None]}, {"format": "date-time"}, {"type": "integer", "airbyte_type": "string"},
]


def blank(rng):
    return rng.choice(["", "", "", " ", "\t", " \r "])


def spelled(rng, name):
    """The string of a name, perhaps with escapes that are not owed."""
    if rng.random() < 0.8:
        return quoted(name)
    return '"' + "".join(f"\\u{ord(c):04{rng.choice('xX')}}" if ord(c) < 0x10000 and rng.random() < 0.5 else quoted(c)[1:-1] for c in name) + '"'


def number(rng):
    whole = rng.choice(["0", "1", "7", "10", "907", "1000", "9223372036854775807", "9223372036854775808", "9" * 38, "9" * 39, "1" + "0" * 45])
    behind = rng.choice(["", "", "", ".0", ".5", ".000", ".10", "." + "3" * 25, "." + "0" * 40 + "1"])
    exponent = rng.choice(["", "", "", "e0", "E5", "e+5", "E-05", "e400", "e401", "e-400", "e-401", "e99999999999999999999", "e-18", "e18"])
    return rng.choice(["", "", "-"]) + whole + behind + exponent


def instant(rng):
    moment = datetime.datetime(rng.randrange(1, 9990), rng.randrange(1, 13), rng.randrange(1, 29), rng.randrange(24), rng.randrange(60), rng.randrange(60))
    fraction = rng.choice(["", "", ".5", ".123456789", ".000000001", ".120"])
    zone = rng.choice(["Z", "Z", "+00:00", "+02:00", "-11:30", "+14:00"])
    if moment.year < 3:
        zone = "Z"
    return moment.isoformat() + fraction + zone


def string(rng):
    if rng.random() < 0.3:
        return spelled(rng, instant(rng))
    return spelled(rng, rng.choice(["", "x", "soon", "2024-05-01", "Zoë", "a;b", "n", "#1e1", "null", 'a"b\\', "\n\t\u0000", "李雷", "\U0001f600", "10:00:00"]))


def value(rng, room):
    kind = rng.choice(["string", "string", "string", "number", "number", "number", "true", "false", "null", "array", "object"])
    if kind == "string":
        return string(rng)
    if kind == "number":
        return number(rng)
    if kind == "array":
        items = [value(rng, room - 1) for _ in range(rng.choice([0, 1, 3]))] if room > 0 else []
        return "[" + blank(rng) + (blank(rng) + "," + blank(rng)).join(items) + blank(rng) + "]"
    if kind == "object":
        return an_object(rng, room - 1, rng.choice([0, 1, 3]) if room > 0 else 0)
    return kind


def an_object(rng, room, size):
    items = [spelled(rng, rng.choice(NAMES)) + blank(rng) + ":" + blank(rng) + value(rng, room) for _ in range(size)]
    return "{" + blank(rng) + (blank(rng) + "," + blank(rng)).join(items) + blank(rng) + "}"


def data(rng, columns):
    """Mostly an object with the columns' names in order, some missing, some twice."""
    if rng.random() < 0.3:
        return an_object(rng, 3, rng.choice([0, 1, 5, 20]))
    names = [name for name in columns if rng.random() < 0.9]
    if rng.random() < 0.3:
        rng.shuffle(names)
    names += [rng.choice(NAMES) for _ in range(rng.choice([0, 0, 1, 2]))]
    return "{" + ",".join(spelled(rng, name) + ":" + blank(rng) + value(rng, 2) for name in names) + "}"


def meta(rng):
    changes = rng.choice(["[]", '[{"field":"x"} , 5, "y"]', "null", "{}", '"z"', '[ [1, 2] ]'])
    return rng.choice([None, None, None, "null", "5", "{}", '{"changes":%s}' % changes, '{"more":1, "changes" :%s,"x":[]}' % changes, '{"changes":[1],"changes":%s}' % changes])


NO_RECORDS = [
    "", "{}", "[]", "x", '{"type":"RECORD"}', '{"type":"RECORD","record":{"stream":"a","data":[],"emitted_at":1}}', '{"type":"RECORD","record":{"stream":"a","data":{}}}',
    '{"type":"RECORD","record":{"data":{},"emitted_at":1}}', '{"type":"record","record":{"stream":"a","data":{},"emitted_at":1}}', '{"type":"LOG","log":{"level":"INFO","message":"x"}}',
    '{"type":"RECORD","record":{"stream":"a","data":{"a":},"emitted_at":1}}', '{"type":"STATE","state":{"data":{}}}', '{"type":"RECORD","record":{"stream":"a","data":{},"emitted_at":1.5}}',
]


def schema_of(rng):
    names = [rng.choice(NAMES) for _ in range(rng.choice([0, 2, 6, 12]))]
    return '{"type":"object","properties":{' + ",".join(spelled(rng, name) + ":" + json.dumps(rng.choice(PROPERTIES)) for name in names) + "}}"


def group(rng):
    """A schema, a key, a cursor, the lines, and the rows that they have."""
    schema = schema_of(rng)
    columns = columns_of(schema)
    key = [[rng.choice(STEPS) for _ in range(rng.choice([1, 1, 2]))] for _ in range(rng.choice([0, 1, 1, 2, 3]))]
    cursor = [rng.choice(STEPS) for _ in range(rng.choice([0, 1, 1, 2]))]
    lines, rows = [], []
    for seq in range(60):
        if rng.random() < 0.1:
            lines.append(rng.choice(NO_RECORDS))
            continue
        body, emitted_at, told = data(rng, columns), rng.choice([0, 1, 2**63 - 1, 1714557600000]), meta(rng)
        more = "" if told is None else f',"meta":{told}'
        lines.append(f'{{"type":"RECORD","record":{{"stream":"a","data":{body},"emitted_at":{emitted_at}{more}}}}}')
        rows.append(row_of(seq, body, emitted_at, None if told == "null" else told, columns, key, cursor))
    return schema, key, cursor, lines, rows


# Runs.


def read_rows(text):
    rows, at = [], 0
    while at < len(text):
        end = text.index(b"\n", at)
        row, at = [tuple(map(int, text[at:end].split()))], end + 1
        for _ in range(6):
            start = text.index(b" ", at) + 1
            end = start + int(text[at : start - 1])
            row.append(text[start:end].decode())
            at = end + 1
        rows.append(tuple(row))
    return rows


def run(program, folder, schema, key, cursor, lines):
    for name, text in (("schema", schema), ("lines", "\n".join(lines))):
        with open(os.path.join(folder, name), "w", encoding="utf-8", newline="\n") as file:
            file.write(text)
    words = [os.path.join(folder, "schema"), os.path.join(folder, "lines"), ",".join("/".join(path) for path in key), "/".join(cursor)]
    done = subprocess.run([program] + words, stdout=subprocess.PIPE, timeout=60)
    return read_rows(done.stdout) if done.returncode == 0 else None


def main():
    program = os.path.abspath(sys.argv[1])
    groups = int(sys.argv[2]) if len(sys.argv) > 2 else 80
    rng = random.Random(int(sys.argv[3]) if len(sys.argv) > 3 else 20240501)
    count, wrong = 0, 0
    with tempfile.TemporaryDirectory() as folder:
        for _ in range(groups):
            schema, key, cursor, lines, rows = group(rng)
            found = run(program, folder, schema, key, cursor, lines)
            count += len(rows)
            if found != rows:
                wrong += 1
                print("schema:", schema, "key:", key, "cursor:", cursor)
                for want, row in zip(rows, found or []):
                    if want != row:
                        print("wanted:", want)
                        print("found: ", row)
                        break
    print(f"{count} rows in {groups} groups, {wrong} groups otherwise")
    sys.exit(1 if wrong else 0)


if __name__ == "__main__":
    main()
