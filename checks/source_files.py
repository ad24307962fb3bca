#!/usr/bin/env python3
"""Reads CSV files with `source_files`, and gives its records and states to `airbyte_worker local`.

usage: source_files.py SOURCE WORKER FILE.csv

A file is read whole, and again from each state that was written, so that the two parts make one; each record has to be the row
that Python's csv module reads, and the worker has to say the same rows in the same order of the whole and of the parts. A start
behind more records than there are says nothing. Each state has to be written out before the next line. Words, texts that are
missing or have another form, and outputs that break have to end the program with their exit statuses. A FILE that is not there
is passed over.
"""
import csv
import json
import os
import random
import socket
import subprocess
import sys
import tempfile

SOURCE, WORKER, FILE = (os.path.realpath(word) for word in sys.argv[1:4])
DRAW = random.Random(1)
failed = False


def refuse(name, text):
    global failed
    failed = True
    print(f"source_files: {name}: {text}")


def dump(value):
    return json.dumps(value, ensure_ascii=False, separators=(",", ":"))


def write(name, value):
    with open(name, "w", encoding="utf-8", newline="") as file:
        file.write(value)


def configure(folder, path, every):
    write(f"{folder}/config.json", dump({"files": [{"name": "rows", "path": path, "every": every}]}))


def read_words(folder, state=None):
    words = [SOURCE, "read", "--config", f"{folder}/config.json", "--catalog", f"{folder}/catalog.json"]
    if state is None:
        return words
    write(f"{folder}/state.json", f"[{state}]")
    return words + ["--state", f"{folder}/state.json"]


def catalog(folder, columns):
    properties = {column: {"type": "string"} for column in columns}
    stream = {"name": "rows", "json_schema": {"type": "object", "properties": properties}}
    entry = {"stream": stream, "sync_mode": "incremental", "destination_sync_mode": "append"}
    write(f"{folder}/catalog.json", dump({"streams": [entry]}))


def state_of(row):
    return dump({"type": "STREAM", "stream": {"stream_descriptor": {"name": "rows"}, "stream_state": {"row": row}}})


def without_statuses(path, text):
    """The lines of an output, without those of statuses, which have to be STARTED and COMPLETE."""
    lines = text.decode().split("\n")[:-1]
    statuses = [json.loads(line)["trace"]["stream_status"]["status"] for line in lines if line.startswith('{"type":"TRACE"')]
    if statuses != ["STARTED", "COMPLETE"]:
        refuse(path, f"statuses {statuses}")
    return [line for line in lines if not line.startswith('{"type":"TRACE"')]


def read(folder, path, every, state=None):
    """The lines that the source says, without those of statuses."""
    configure(folder, path, every)
    ran = subprocess.run(read_words(folder, state), capture_output=True, check=True)
    return without_statuses(path, ran.stdout)


def rows_of(lines):
    return [json.loads(line)["record"]["data"] for line in lines if line.startswith('{"type":"RECORD"')]


def local(folder, lines):
    """The rows that the worker says of these lines."""
    write(f"{folder}/messages.jsonl", "".join(line + "\n" for line in lines))
    words = [WORKER, "local", "--messages", f"{folder}/messages.jsonl", "--catalog", f"{folder}/catalog.json"]
    ran = subprocess.run(words, capture_output=True, check=True)
    return [line for line in ran.stdout.decode().split("\n") if line.startswith("row ")]


def refuses_start(folder, path, every, row):
    """A start behind more records than there are."""
    configure(folder, path, every)
    ran = subprocess.run(read_words(folder, state_of(row)), capture_output=True)
    if (ran.returncode, ran.stdout) != (12, b""):
        refuse(path, f"started behind record {row}: exit status {ran.returncode}, {ran.stdout[:200]}")


def written_out(folder, path, every):
    """Each state ends a piece that is written: a reader has it before the next line is."""
    configure(folder, path, every)
    ours, theirs = socket.socketpair(socket.AF_UNIX, socket.SOCK_SEQPACKET)
    child = subprocess.Popen(read_words(folder), stdout=theirs.fileno())
    theirs.close()
    pieces = []
    while piece := ours.recv(1 << 20):
        pieces.append(piece)
    ours.close()
    ends, size = set(), 0
    for piece in pieces:
        size += len(piece)
        ends.add(size)
    at = 0
    for line in b"".join(pieces).split(b"\n")[:-1]:
        at += len(line) + 1
        if line.startswith(b'{"type":"STATE"') and at not in ends:
            refuse(path, f"a state waits: {line[:200]}")
    if child.wait() != 0:
        refuse(path, f"exit status {child.returncode}")


def says_columns(folder, path, columns):
    """`check` takes the file, and `discover` says its columns."""
    words = ["--config", f"{folder}/config.json"]
    ran = subprocess.run([SOURCE, "check", *words], capture_output=True, check=True)
    if json.loads(ran.stdout) != {"type": "CONNECTION_STATUS", "connectionStatus": {"status": "SUCCEEDED"}}:
        refuse(path, f"check says {ran.stdout[:200]}")
    ran = subprocess.run([SOURCE, "discover", *words], capture_output=True, check=True)
    (stream,) = json.loads(ran.stdout)["catalog"]["streams"]
    schema = {"type": "object", "properties": {column: {"type": "string"} for column in columns}}
    if stream["name"] != "rows" or stream["json_schema"] != schema or list(stream["json_schema"]["properties"]) != columns:
        refuse(path, f"discover says {dump(stream)[:400]}")


def check(folder, path, every, starts=()):
    with open(path, encoding="utf-8", newline="") as file:
        table = [row for row in csv.reader(file) if row]
    columns, records = (table[0], table[1:]) if table else ([], [])
    wanted = [dict(zip(columns, record)) for record in records]
    catalog(folder, columns)
    whole = read(folder, path, every)
    if rows_of(whole) != wanted:
        refuse(path, "other rows than Python's")
    rows = local(folder, whole)
    if len(rows) != len(wanted):
        refuse(path, f"the worker says {len(rows)} of {len(wanted)} rows")
    states = [at for at, line in enumerate(whole) if line.startswith('{"type":"STATE"')]
    for at in states:
        object = whole[at][len('{"type":"STATE","state":') : -1]
        rest = read(folder, path, every, object)
        parts = whole[: at + 1] + [line for line in rest if line.startswith('{"type":"RECORD"')]
        if rows_of(parts) != wanted:
            refuse(path, f"other rows behind {object}")
        if local(folder, whole[: at + 1]) + local(folder, rest) != rows:
            refuse(path, f"the worker says other rows behind {object}")
    for row in starts:
        if rows_of(read(folder, path, every, state_of(row))) != wanted[row:]:
            refuse(path, f"other rows behind record {row}")
    refuses_start(folder, path, every, len(records) + 1)
    written_out(folder, path, every)
    says_columns(folder, path, columns)
    return len(records), len(states)


def odd_field():
    pieces = ["", "a", '"', ",", "\n", "\r\n", "ë", "李", "\t", "\\", "x" * 40]
    return "".join(DRAW.choice(pieces) for _ in range(DRAW.randrange(4)))


def odd_file(path):
    columns = DRAW.randrange(1, 6)
    with open(path, "w", encoding="utf-8", newline="") as file:
        writer = csv.writer(file, lineterminator=DRAW.choice(["\n", "\r\n"]), quoting=DRAW.choice([csv.QUOTE_ALL, csv.QUOTE_MINIMAL]))
        writer.writerow([f"c{i}" for i in range(columns)])
        for _ in range(DRAW.randrange(60)):
            row = [odd_field() for _ in range(columns)]
            if any(row):
                writer.writerow(row)


def ends(folder):
    """Words, texts and outputs that end the program."""
    write(f"{folder}/x.csv", "id\n1\n")
    write(f"{folder}/misfit.csv", "id\n1\n1,2\n")
    catalog(folder, ["id"])
    for name, path in (("config", "x.csv"), ("missing", "none.csv"), ("misfit", "misfit.csv")):
        write(f"{folder}/{name}.json", dump({"files": [{"name": "rows", "path": f"{folder}/{path}"}]}))
    write(f"{folder}/bad.json", "{}")
    spec = b'{"type":"SPEC","spec":{"connectionSpecification":{"type":"object","required":["files"]}}}\n'
    succeeded, bad, unopened = (
        dump({"type": "CONNECTION_STATUS", "connectionStatus": said}).encode() + b"\n"
        for said in ({"status": "SUCCEEDED"}, {"status": "FAILED", "message": "bad config"}, {"status": "FAILED", "message": "cannot open"})
    )
    cases = [
        (["spec"], 0, spec),
        (["spec", "x"], 2, b""),
        ([], 2, b""),
        (["check", "--config", "config.json"], 0, succeeded),
        (["check", "--config", "bad.json"], 0, bad),
        (["check", "--config", "missing.json"], 0, unopened),
        (["check", "--config", "none.json"], 0, unopened),
        (["discover", "--config", "bad.json"], 10, b""),
        (["discover", "--config", "missing.json"], 13, b""),
        (["discover", "--config", "misfit.json"], 9, b""),
        (["read", "--config", "config.json"], 2, b""),
        (["read", "--config", "config.json", "--catalog", "none.json"], 13, b""),
        (["read", "--config", "bad.json", "--catalog", "catalog.json"], 10, b""),
        (["read", "--config", "misfit.json", "--catalog", "catalog.json"], 9, b""),
        (["read", "--config", "config.json", "--catalog", "bad.json"], 11, b""),
        (["read", "--config", "config.json", "--catalog", "catalog.json", "--state", "bad.json"], 12, b""),
    ]
    for words, status, said in cases:
        ran = subprocess.run([SOURCE, *words], capture_output=True, cwd=folder)
        if (ran.returncode, ran.stdout, ran.stderr) != (status, said, b""):
            refuse(" ".join(words), f"exit status {ran.returncode}, {ran.stdout[:200]}, {ran.stderr[:200]}")
    for words in (["spec"], ["check", "--config", "config.json"], ["read", "--config", "config.json", "--catalog", "catalog.json"]):
        reader, writer = os.pipe()
        os.close(reader)
        full = os.open("/dev/full", os.O_WRONLY)
        for output in (writer, full):
            ran = subprocess.run([SOURCE, *words], stdout=output, stderr=subprocess.PIPE, cwd=folder)
            os.close(output)
            if (ran.returncode, ran.stderr) != (7, b""):
                refuse(" ".join(words), f"with a broken output: exit status {ran.returncode}, {ran.stderr[:200]}")


with tempfile.TemporaryDirectory() as folder:
    ends(folder)
    if not failed:
        print("source_files: words, faulty texts and broken outputs")
    records, states = 0, 0
    for i in range(20):
        odd_file(f"{folder}/odd{i}.csv")
        found = check(folder, f"{folder}/odd{i}.csv", DRAW.randrange(1, 30))
        records, states = records + found[0], states + found[1]
    if not failed:
        print(f"source_files: 20 files of odd fields, {records} records, {states} states, each started from")
    if os.path.exists(FILE):
        records, states = check(folder, FILE, 100, (0, 100, 312))
        if not failed:
            print(f"source_files: {os.path.basename(FILE)}, {records} records, {states} states, each started from")
    else:
        print("source_files: no such file here, passed over")
sys.exit(1 if failed else 0)
