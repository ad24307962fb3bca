#!/usr/bin/env python3
"""Compares the worker's judgement of random object texts with that of Python's `json`.

usage: random_objects.py PROGRAM [COUNT [SEED]]

Each text is the `data` of a RECORD line. Where it is an object, the worker must take the line as a record and say the text
as it stood; else the line is no message, and must be passed over and said whole behind `source: `. Either way the run ends
with status 0. What is judged otherwise than by Python's `json` is written in `judge` below.
"""
import json
import os
import random
import subprocess
import sys
import tempfile

MAX_DEPTH = 127
AROUND = 2  # the line and its `record` are objects around a text
FRONT = b'{"type":"RECORD","record":{"stream":"a","data":'
BACK = b',"emitted_at":1}}'
CATALOG = (
    b'{"streams":[{"stream":{"name":"a","json_schema":{"type":"object"},"supported_sync_modes":["incremental"]},'
    b'"sync_mode":"incremental","destination_sync_mode":"append"}]}'
)
BLANKS = b" \t\n\r"


class Pairs(list):
    """The members of an object, in order; a name may stand twice."""


def refuse(word):
    raise ValueError(word)


def depth_of(value):
    """How deep arrays and objects nest; a string with half of a surrogate pair is refused."""
    deepest, open_values = 0, [(value, 0)]
    while open_values:
        held, around = open_values.pop()
        if isinstance(held, str):
            held.encode("utf-8")
        elif isinstance(held, Pairs):
            deepest = max(deepest, around + 1)
            for name, inner in held:
                name.encode("utf-8")
                open_values.append((inner, around + 1))
        elif isinstance(held, list):
            deepest = max(deepest, around + 1)
            open_values.extend((inner, around + 1) for inner in held)
    return deepest


def judge(text):
    """The members of the object that the text is, and its depth; None where it is no object.

    Otherwise than in Python's `json`: NaN and the infinities, bytes that are not UTF-8 and escapes of half a
    surrogate pair are refused, and numbers keep their text.
    """
    try:
        value = json.loads(
            text.decode("utf-8"), parse_int=str, parse_float=str, parse_constant=refuse, object_pairs_hook=Pairs
        )
        if not isinstance(value, Pairs):
            return None
        return value, depth_of(value)
    except (ValueError, RecursionError):
        return None


def is_taken(text):
    """Whether a text is an object that a line can hold."""
    judged = judge(text)
    return judged is not None and judged[1] + AROUND <= MAX_DEPTH


# Valid texts.


def blank(rng):
    return rng.choice(["", "", "", "", " ", "\t", "\r", "  ", " \t\r "])


def string(rng):
    pieces = [
        "a", "Z", "0", " ", "/", "{", "}", "[", "]", ",", ":", "'", "\x7f", "é", "ß", "李", "\u2028", "\ufeff", "\ufffe",
        "\U0001f600", "\U0010ffff", "\ud7ff", "\ue000", '\\"', "\\\\", "\\/", "\\b", "\\f", "\\n", "\\r", "\\t", "\\u0000",
        "\\u001F", "\\u00e9", "\\uD7FF", "\\uE000", "\\uffff", "\\ud83d\\ude00", "\\uDBFF\\uDFFF", "\\uD800\\uDC00", "null",
    ]
    return '"' + "".join(rng.choice(pieces) for _ in range(rng.choice([0, 1, 1, 2, 3, 5, 9, 40]))) + '"'


def number(rng):
    whole = rng.choice(["0", "1", "9", "10", "907", "9223372036854775807", "9" * 30, "1" + "0" * 330])
    behind = rng.choice(["", "", ".0", ".5", ".000", ".10", "." + "3" * 25])
    exponent = rng.choice(["", "", "e0", "E5", "e+5", "E-05", "e99999999999999999999", "e-400"])
    return rng.choice(["", "", "-"]) + whole + behind + exponent


def value(rng, room):
    kinds = ["string", "string", "number", "number", "true", "false", "null"]
    if room > 0:
        kinds += ["array", "object", "object"]
    kind = rng.choice(kinds)
    if kind == "string":
        return string(rng)
    if kind == "number":
        return number(rng)
    if kind == "array":
        return array(rng, room - 1)
    if kind == "object":
        return an_object(rng, room - 1)
    return kind


def joined(rng, items):
    return (blank(rng) + "," + blank(rng)).join(items)


def array(rng, room):
    items = [value(rng, room) for _ in range(rng.choice([0, 0, 1, 2, 3]))]
    return "[" + blank(rng) + joined(rng, items) + blank(rng) + "]"


def an_object(rng, room):
    names = [rng.choice(['"a"', '"data"', '""', string(rng)]) for _ in range(rng.choice([0, 1, 1, 2, 4]))]
    items = [name + blank(rng) + ":" + blank(rng) + value(rng, room) for name in names]
    return "{" + blank(rng) + joined(rng, items) + blank(rng) + "}"


def deep(rng):
    """An object that nests about as deep as a line may."""
    size = rng.randrange(118, 134)
    front, back = "", ""
    for level in range(size):
        if level == 0 or rng.random() < 0.5:
            front, back = front + '{"a":', "}" + back
        else:
            front, back = front + "[", "]" + back
    return front + rng.choice(["{}", "[]", "1", '"{[{["', "null"]) + back


def valid(rng):
    if rng.random() < 0.15:
        text = deep(rng)
    else:
        text = an_object(rng, rng.choice([0, 1, 2, 4]))
    return (blank(rng) + text + blank(rng)).encode("utf-8")


# Texts that are perhaps broken.

ODD = [
    b"01", b"-", b"+1", b"1.", b".5", b"1e", b"1e+", b"0x1", b"--1", b"-01", b"1.e1", b"00", b"-0", b"1_0", b"NaN", b"Infinity",
    b"-Infinity", b"True", b"nul", b"nulll", b"tru", b"'a'", b'"\\ud800"', b'"\\udc00"', b'"\\ude00\\ud83d"',
    b'"\\ud83d\\u0041"', b'"\\ud83dx"', b'"\\ud83d\\n"', b'"\\ud83d\\ud83d\\ude00"', b'"\\u12"', b'"\\u12g4"', b'"\\x"', b'"\\U0041"',
    b'"\\u+041"', b'"\\u 041"', b'"\x00"', b'"\x1f"', b'"\t"', b'"\r"', b'"\x7f"', b'"\xff"', b'"\xc3"', b'"\xc0\x80"',
    b'"\xed\xa0\x80"', b'"\xf4\x90\x80\x80"', b'"\xe2\x82"', b'"\xf0\x9f\x98"', b'"\xed\x9f\xbf"', b'"\xef\xbf\xbf"', b'"\xf4\x8f\xbf\xbf"',
    b"\xef\xbb\xbf1", b"\xc2\xa01", b"\x0b1", b"\x0c1", b"/**/1", b"1//", b"{", b"}", b"[", b"]", b"", b",", b"1,", b",1", b"1 1",
    b"[1,]", b"[,1]", b'{"a"}', b'{"a":}', b'{"a":1,}', b"{1:1}", b"{a:1}", b'{"a" "b"}', b'{"a":1 "b":2}', b'{"a":1]', b'["a":1]',
    b"[1}", b'{"a"::1}', b'{"a":1,,"b":2}', b"{null:1}", "\uff11".encode(), "\u0661".encode(), b"1\xc2\xb2",
]
MARKS = b'{}[],:"\\ \t\r0123456789eE+-.tfnu/dD8\x00\x1f\x7f\x80\xbf\xc3\xe9\xed\xf0\xff'


def mutated(rng, text):
    kind = rng.choice(["flip", "bit", "drop", "insert", "cut", "doubled", "odd", "odd", "swap", "behind", "front"])
    at = rng.randrange(len(text))
    end = min(len(text), at + rng.choice([1, 1, 2, 5, 20]))
    if kind == "flip":
        return text[:at] + bytes([rng.choice(MARKS)]) + text[at + 1:]
    if kind == "bit":
        return text[:at] + bytes([text[at] ^ (1 << rng.randrange(8))]) + text[at + 1:]
    if kind == "drop":
        return text[:at] + text[end:]
    if kind == "insert":
        return text[:at] + bytes([rng.choice(MARKS)]) + text[at:]
    if kind == "cut":
        return rng.choice([text[:at], text[at:]])
    if kind == "doubled":
        return text[:end] + text[at:]
    if kind == "swap":
        return text[:at] + text[at:end][::-1] + text[end:]
    if kind == "behind":
        return text + rng.choice(ODD)
    if kind == "front":
        return rng.choice(ODD) + text
    places = [place for place in range(len(text)) if text[place] in b":[,"] or [at]
    place = rng.choice(places) + 1
    return text[:place] + rng.choice(ODD) + rng.choice([b"", b",", text[place:], b"," + text[place:], b"}", text[place + 1:]])


def odd_member(rng):
    return b'{"a":' + rng.choice(ODD) + rng.choice([b"}", b',"b":2}', b'},"b":2}', b" }"])


def texts(rng, count):
    """Texts without newlines, each once."""
    made = {}
    for odd in ODD:
        made[b'{"a":' + odd + b"}"] = None
        made[b"{" + odd + b":1}"] = None
        made[odd] = None
    while len(made) < count:
        text = valid(rng)
        choice = rng.random()
        if choice < 0.05:
            text = odd_member(rng)
        elif choice < 0.55:
            for _ in range(rng.choice([1, 1, 1, 2])):
                text = mutated(rng, text) or b"{"
        if b"\n" not in text:
            made[text] = None
    return list(made)


# Runs.


def run(program, folder, lines):
    """The exit status and the lines said."""
    messages = os.path.join(folder, "messages.jsonl")
    with open(messages, "wb") as file:
        file.write(b"".join(line + b"\n" for line in lines))
    words = [program, "local", "--messages", messages, "--catalog", os.path.join(folder, "catalog.json")]
    done = subprocess.run(words, stdout=subprocess.PIPE, timeout=60)
    return done.returncode, done.stdout.split(b"\n")[:-1]


def line_of(text):
    return FRONT + text + BACK


def state_of(records):
    return (
        b'{"type":"STATE","state":{"type":"STREAM","stream":{"stream_descriptor":{"name":"a"}},'
        b'"sourceStats":{"recordCount":%d}}}' % records
    )


def check_taken(program, folder, taken):
    """The texts that are not taken as they should be."""
    status, said = run(program, folder, [line_of(text) for text in taken] + [state_of(len(taken))])
    rows = [line for line in said if line.startswith(b"row ")]
    if status == 0 and said[-1:] == [b"status 0 Ok"] and rows == [b"row " + text.strip(BLANKS) for text in taken]:
        return []
    if len(taken) == 1:
        return taken
    half = len(taken) // 2
    return check_taken(program, folder, taken[:half]) + check_taken(program, folder, taken[half:])


def check_passed(program, folder, passed):
    """The texts whose lines are not passed over, and said, as they should be."""
    status, said = run(program, folder, [line_of(text) for text in passed])
    end = [b"attempt 1: 0 Ok", b"table a rows 0", b"status 0 Ok"]
    if status == 0 and said == [b"source: " + line_of(text) for text in passed] + end:
        return []
    if len(passed) == 1:
        return passed
    half = len(passed) // 2
    return check_passed(program, folder, passed[:half]) + check_passed(program, folder, passed[half:])


def main():
    program = os.path.abspath(sys.argv[1])
    count = int(sys.argv[2]) if len(sys.argv) > 2 else 4000
    rng = random.Random(int(sys.argv[3]) if len(sys.argv) > 3 else 20240501)
    taken, passed, skipped = [], [], 0
    for text in texts(rng, count):
        if is_taken(text):
            taken.append(text)
        elif judge(line_of(text)) is None or judge(text) is not None or judge(line_of(text))[1] > MAX_DEPTH:
            passed.append(text)
        else:
            skipped += 1  # no object, or more than one value, and yet the line around it may be a message
    wrong = 0
    with tempfile.TemporaryDirectory() as folder:
        with open(os.path.join(folder, "catalog.json"), "wb") as file:
            file.write(CATALOG)
        for text in check_taken(program, folder, taken):
            print("should be taken:", text)
            wrong += 1
        for text in check_passed(program, folder, passed):
            print("should be no message:", text)
            wrong += 1
    print(f"{len(taken)} taken, {len(passed)} no messages, {skipped} skipped, {wrong} judged otherwise")
    sys.exit(1 if wrong else 0)


if __name__ == "__main__":
    main()
