#!/usr/bin/env python3
"""Reads tables of an SQLite database with `source_tables`.

usage: source_tables.py SOURCE

The database is made by Python's sqlite3, as rows of integers, texts and instants with few different cursors and keys. The records
have to be its rows in order of cursor, key and id, as Python sorts them; the states have to stand between rows that differ in
cursor or key, with the values of the row before and the number of records since the last; and a start from each state has to say
the rows behind it, also where rows were added meanwhile. A row that is no object, a database that is missing, has no such table
or is none, words and texts of another form have to end the program with their exit statuses, and leave what was said before.
"""
import datetime
import json
import os
import random
import sqlite3
import subprocess
import sys
import tempfile

SOURCE = os.path.realpath(sys.argv[1])
DRAW = random.Random(1)
SCHEMA = {"type": "object", "properties": {"id": {"type": "integer"}, "at": {"type": ["null", "string"], "format": "date-time"}}}
failed = False


def refuse(name, text):
    global failed
    failed = True
    print(f"source_tables: {name}: {text}")


def dump(value):
    return json.dumps(value, ensure_ascii=False, separators=(",", ":"))


def write(name, value):
    with open(name, "w", encoding="utf-8") as file:
        file.write(value)


def make(path, rows, table="users"):
    base = sqlite3.connect(path)
    base.execute("CREATE TABLE IF NOT EXISTS source_rows (tab TEXT, id INTEGER, body TEXT, PRIMARY KEY (tab, id))")
    base.executemany("INSERT INTO source_rows VALUES (?, ?, ?)", [(table, id, body) for id, body in rows])
    base.commit()
    base.close()


def draw_rows(first, count):
    """Rows with few instants, some null, and few ids, so that pairs of cursor and key come again."""
    rows = []
    for number in range(first, first + count):
        at = None if DRAW.random() < 0.1 else f"2024-05-{DRAW.randint(1, 9):02}T{DRAW.randint(0, 2):02}:00:00Z"
        rows.append((number, dump({"id": DRAW.randint(0, 20), "at": at, "text": f"row {number}"})))
    return rows


def pair_of(body):
    """Null is below every instant."""
    row = json.loads(body)
    at = row["at"]
    moment = None if at is None else datetime.datetime.fromisoformat(at.replace("Z", "+00:00"))
    return (at is not None, moment.timestamp() if moment else 0, row["id"])


def configure(folder, base, every, name="users"):
    table = {"name": name, "schema": SCHEMA, "cursor": "at", "key": ["id"], "every": every}
    write(f"{folder}/config.json", dump({"database": base, "tables": [table]}))
    stream = {"name": name, "json_schema": SCHEMA}
    entry = {
        "stream": stream,
        "sync_mode": "incremental",
        "destination_sync_mode": "append_dedup",
        "cursor_field": ["at"],
        "primary_key": [["id"]],
    }
    write(f"{folder}/catalog.json", dump({"streams": [entry]}))


def run(folder, state=None, command="read"):
    words = [SOURCE, command, "--config", f"{folder}/config.json"]
    if command == "read":
        words += ["--catalog", f"{folder}/catalog.json"]
    if state is not None:
        write(f"{folder}/state.json", dump([state]))
        words += ["--state", f"{folder}/state.json"]
    return subprocess.run(words, capture_output=True, check=False)


def read(folder, state=None):
    """The messages that were said, without the statuses, which have to be STARTED first and COMPLETE last."""
    ran = run(folder, state)
    if ran.returncode != 0 or ran.stderr:
        refuse("read", f"ended with {ran.returncode} and {ran.stderr!r}")
    messages = [json.loads(line) for line in ran.stdout.decode().splitlines()]
    ends = [message["trace"]["stream_status"]["status"] for message in messages if message["type"] == "TRACE"]
    if ends != ["STARTED", "COMPLETE"] or messages[0]["type"] != "TRACE" or messages[-1]["type"] != "TRACE":
        refuse("read", f"statuses {ends}")
    return messages[1:-1]


def blob_of(state):
    return state["stream"]["stream_state"]


def judge(name, messages, bodies, every, started):
    """Records are these bodies in order; each state stands where it is due, with its values and its count."""
    records = [message["record"]["data"] for message in messages if message["type"] == "RECORD"]
    if [dump(record) for record in records] != bodies:
        refuse(name, "other records, or in another order")
    since, at, states = 0, 0, []
    for number, message in enumerate(messages):
        if message["type"] == "RECORD":
            since, at = since + 1, at + 1
            continue
        state = message["state"]
        states.append((at, state))
        last = json.loads(bodies[at - 1]) if at else None
        right = {"cursor": last["at"], "key": [last["id"]]} if at else started
        if blob_of(state) != right:
            refuse(name, f"the state behind {at} rows is {blob_of(state)}")
        if state["sourceStats"]["recordCount"] != since:
            refuse(name, f"the state behind {at} rows counts {state['sourceStats']}")
        if 0 < at < len(bodies):
            if pair_of(bodies[at - 1]) == pair_of(bodies[at]):
                refuse(name, f"a state stands between rows {at} and {at + 1}, which are alike")
            alike = [other for other in bodies[:at] if pair_of(other) == pair_of(bodies[at - 1])]
            if not every <= since < every + len(alike):
                refuse(name, f"a state stands behind {since} records")
        since = 0
    if not states or states[-1][0] != len(bodies) or since:
        refuse(name, "no state stands last")
    return states


def ordered(rows):
    return [body for id, body in sorted(rows, key=lambda row: (pair_of(row[1]), row[0]))]


def play(folder):
    for every, count in ((1, 40), (3, 200), (7, 1), (5, 0), (1000, 2500)):
        base = f"{folder}/{every}-{count}.db"
        rows = draw_rows(1, count)
        make(base, rows)
        configure(folder, base, every)
        bodies = ordered(rows)
        states = judge(f"{count} rows", read(folder), bodies, every, {})
        starts = states if len(states) < 8 else DRAW.sample(states, 8)
        for at, state in starts:
            judge(f"{count} rows from {at}", read(folder, state), bodies[at:], every, blob_of(state))
        more = draw_rows(count + 1, 30)
        make(base, more)
        for at, state in starts:
            behind = pair_of(bodies[at - 1]) if at else None
            rest = [body for body in ordered(rows + more) if behind is None or pair_of(body) > behind]
            said = [dump(message["record"]["data"]) for message in read(folder, state) if message["type"] == "RECORD"]
            if said != rest:
                refuse(f"{count} rows and more from {at}", "other records")


def expect(name, ran, status, said=""):
    if ran.returncode != status or ran.stdout.decode() != said or ran.stderr:
        refuse(name, f"ended with {ran.returncode}, said {ran.stdout.decode()!r} and {ran.stderr!r}")


def connection(status, message=None):
    part = {"status": status} | ({"message": message} if message else {})
    return dump({"type": "CONNECTION_STATUS", "connectionStatus": part}) + "\n"


def edges(folder):
    base = f"{folder}/edges.db"
    make(base, [(1, '{"id":1,"at":null}'), (2, "[]")])
    configure(folder, base, 10)
    expect("a row that is an array", run(folder), 9)
    expect("check", run(folder, command="check"), 0, connection("SUCCEEDED"))
    configure(folder, f"{folder}/missing.db", 10)
    expect("a missing database", run(folder), 8)
    expect("check of a missing database", run(folder, command="check"), 0, connection("FAILED", "cannot open"))
    if os.path.exists(f"{folder}/missing.db"):
        refuse("a missing database", "was made")
    write(f"{folder}/text.db", "no database at all, but long enough to be looked at as one")
    configure(folder, f"{folder}/text.db", 10)
    expect("a text in place of a database", run(folder), 8)
    sqlite3.connect(f"{folder}/empty.db").executescript("CREATE TABLE other (x); ")
    configure(folder, f"{folder}/empty.db", 10)
    expect("a database without rows of a source", run(folder), 8)
    write(f"{folder}/config.json", "{}")
    expect("a configuration without members", run(folder), 10)
    expect("check of it", run(folder, command="check"), 0, connection("FAILED", "bad config"))
    for words in ([], ["read"], ["read", "--config"], ["write", "--config", "x"], ["spec", "spec"], ["check", "--config=x"]):
        expect(f"the words {words}", subprocess.run([SOURCE, *words], capture_output=True, check=False), 2)
    with open("/dev/full", "wb") as full:
        make(f"{folder}/rows.db", draw_rows(1, 50))
        configure(folder, f"{folder}/rows.db", 10)
        words = [SOURCE, "read", "--config", f"{folder}/config.json", "--catalog", f"{folder}/catalog.json"]
        ran = subprocess.run(words, stdout=full, stderr=subprocess.PIPE, check=False)
        if ran.returncode != 7 or ran.stderr:
            refuse("an output that is full", f"ended with {ran.returncode}")


with tempfile.TemporaryDirectory() as place:
    play(place)
    edges(place)
print("source_tables: refused" if failed else "source_tables: passed")
sys.exit(failed)
