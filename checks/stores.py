#!/usr/bin/env python3
"""Reads stores that `keeper_bench` wrote with Python's own SQLite, and compares them with what they have to hold.

usage: stores.py PROGRAM [KILLS [SEED]]

Each store is read after its program has ended, or was killed: `PRAGMA integrity_check` has to say ok, each batch that the
program said to be committed has to be there, and no part of another. A text that is no database, a store that Python has
locked, and a limit on the file's size have to end the program with a failure, and leave the store as it was.
"""
import os
import random
import resource
import signal
import sqlite3
import subprocess
import sys
import tempfile
import threading
import time

PROGRAM = os.path.realpath(sys.argv[1])
KILLS = int(sys.argv[2]) if len(sys.argv) > 2 else 20
DRAW = random.Random(int(sys.argv[3]) if len(sys.argv) > 3 else 1)
COLUMNS = "load, seq, generation, raw_id, key, cursor, body, columns, meta"
failed = False


def refuse(name, text):
    global failed
    failed = True
    print(f"stores: {name}: {text}")


def lines_of(count, keys):
    """Rows as (key, cursor, body); the keys and the cursors repeat."""
    rows = []
    for i in range(count):
        key = "" if DRAW.random() < 0.05 else f'"{len(str(i % keys))}:{DRAW.randrange(keys)};'
        rows.append((key, f"#{DRAW.randrange(1, 10)}e0", '{"i":%d,"text":"Zoë %s"}' % (i, "x" * DRAW.randrange(200))))
    return rows


def text_of(rows):
    return "".join(f"{key} {cursor} {body}\n" for key, cursor, body in rows).encode()


def run(store, kind, batch, rows, **options):
    return subprocess.run([PROGRAM, store, kind, str(batch)], input=text_of(rows), capture_output=True, timeout=300, **options)


def stored(row, load, seq):
    key, cursor, body = row
    raw_id = "01890a5d-ac96-774b-bcce-%012d" % seq
    return (load, seq, 0, raw_id, key.encode(), cursor.encode(), body, "{}", '{"changes":[]}')


def open_store(name, store):
    """The store as Python sees it, once it has said that it is whole."""
    connection = sqlite3.connect(store)
    said = connection.execute("PRAGMA integrity_check").fetchall()
    if said != [("ok",)]:
        refuse(name, f"integrity_check: {said[:3]}")
    return connection


def look(name, store, loads, dedup):
    """Compares a store with what these loads, each a list of rows, have to leave."""
    connection = open_store(name, store)
    wanted = [stored(row, load + 1, seq) for load, rows in enumerate(loads) for seq, row in enumerate(rows)]
    found = connection.execute(f"SELECT {COLUMNS} FROM raw_rows ORDER BY pos").fetchall()
    if found != wanted:
        refuse(name, f"{len(found)} rows, and not the {len(wanted)} that were loaded")
    if [load for (load,) in connection.execute("SELECT load FROM loads ORDER BY load")] != list(range(1, len(loads) + 1)):
        refuse(name, "other loads")
    winners = {}
    for row in wanted if dedup else []:
        if row[4] and (row[4] not in winners or (row[5], row[0], row[1]) > (winners[row[4]][5], winners[row[4]][0], winners[row[4]][1])):
            winners[row[4]] = row
    found = connection.execute(f"SELECT {COLUMNS} FROM final_rows WHERE stream = 1 AND side = 0 ORDER BY key").fetchall()
    if found != [winners[key] for key in sorted(winners)]:
        refuse(name, f"{len(found)} winners, and not the {len(winners)} of the rows")
    streams = connection.execute("SELECT name, has_ns, namespace, floor, top, greatest, hidden_mark, hidden_minimum FROM streams").fetchall()
    if streams != [("items", 0, "", 0, 0, 0, 0, None)]:
        refuse(name, f"streams {streams}")
    connection.close()


def whole_loads(folder):
    for kind in ("append", "dedup"):
        store = os.path.join(folder, f"{kind}.db")
        loads = []
        for count, batch in ((3000, 700), (1, 5), (0, 5), (2500, 1000)):
            loads.append(lines_of(count, 400))
            ended = run(store, kind, batch, loads[-1])
            if ended.returncode != 0:
                refuse(kind, f"status {ended.returncode}: {ended.stderr}")
            look(kind, store, loads, kind == "dedup")


def no_stores(folder):
    text = os.path.join(folder, "text.db")
    with open(text, "w", encoding="utf-8") as out:
        out.write("no database, " * 20)
    before = open(text, "rb").read()
    ended = run(text, "append", 5, lines_of(10, 5))
    if ended.returncode == 0 or open(text, "rb").read() != before:
        refuse("text", f"status {ended.returncode}")

    store = os.path.join(folder, "locked.db")
    first = lines_of(100, 10)
    run(store, "append", 50, first)
    other = sqlite3.connect(store, isolation_level=None)
    other.execute("BEGIN EXCLUSIVE")
    ended = run(store, "append", 50, lines_of(100, 10))
    if ended.returncode == 0:
        refuse("locked", "the store was taken from another program")
    other.execute("ROLLBACK")
    other.close()
    look("locked", store, [first], False)
    second = lines_of(100, 10)
    if run(store, "append", 50, second).returncode != 0:
        refuse("locked", "the store stays locked")
    look("locked", store, [first, second], False)


def limit_size():
    signal.signal(signal.SIGXFSZ, signal.SIG_IGN)
    resource.setrlimit(resource.RLIMIT_FSIZE, (300_000, 300_000))


def committed(said):
    counts = [int(line.split()[1]) for line in said.decode().split("\n")[:-1] if line.startswith("committed ")]
    return counts[-1] if counts else 0


def full_disk(folder):
    store = os.path.join(folder, "full.db")
    rows = lines_of(5000, 10)
    ended = run(store, "append", 100, rows, preexec_fn=limit_size)
    if ended.returncode <= 0:
        refuse("full disk", f"status {ended.returncode}")
    look("full disk", store, [rows[:committed(ended.stdout)]], False)
    more = lines_of(100, 10)
    if run(store, "append", 50, more).returncode != 0:
        refuse("full disk", "the store cannot be loaded later")
    look("full disk", store, [rows[:committed(ended.stdout)], more], False)


def killed(folder, number, seconds):
    """Kills a load at some moment; what it said is there, and the batch behind that wholly or not at all."""
    name, batch = f"kill {number}", 100
    store = os.path.join(folder, f"kill{number}.db")
    kind = "dedup" if number % 2 else "append"
    rows = lines_of(4000, 300)
    with subprocess.Popen([PROGRAM, store, kind, str(batch)], stdin=subprocess.PIPE, stdout=subprocess.PIPE) as child:
        timer = threading.Timer(DRAW.random() * seconds, child.kill)
        timer.start()
        said, _ = child.communicate(text_of(rows))
        timer.cancel()
    count = committed(said[: said.rfind(b"\n") + 1])
    connection = open_store(name, store)
    tables = connection.execute("SELECT count(*) FROM sqlite_master WHERE name = 'raw_rows'").fetchone()[0]
    found = connection.execute(f"SELECT {COLUMNS} FROM raw_rows ORDER BY pos").fetchall() if tables else []
    connection.close()
    if found != [stored(row, 1, seq) for seq, row in enumerate(rows[: len(found)])]:
        refuse(name, "other rows than the first")
    if not count <= len(found) <= count + batch or len(found) % batch:
        refuse(name, f"{len(found)} rows where {count} were said")
    more = lines_of(150, 300)
    ended = run(store, kind, batch, more)
    if ended.returncode != 0:
        refuse(name, f"status {ended.returncode} of a later load: {ended.stderr}")


with tempfile.TemporaryDirectory() as folder:
    whole_loads(folder)
    no_stores(folder)
    full_disk(folder)
    began = time.monotonic()
    run(os.path.join(folder, "timed.db"), "dedup", 100, lines_of(4000, 300))
    seconds = time.monotonic() - began
    for number in range(KILLS):
        killed(folder, number, seconds)
if failed:
    sys.exit(1)
print(f"stores: whole loads, no stores, a full disk and {KILLS} kills as they have to be")
