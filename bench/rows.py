#!/usr/bin/env python3
"""Times changes of rows, beside the same work by Python's sqlite3 in memory.

    bench/rows.py [PFX]

PFX is the built program, ./pfx where none is given. Over tables of 25,000 to 200,000 rows a desk adds the rows in
requests of 1,000 changes, then 10,000 pages are read at places that chance gives, then 10,000 rows are changed, each by a
request of its own. Each part is told in seconds for both, with the bytes of memory that a row takes. A table of 200,000
rows must take no further one.
"""
import json
import os
import random
import re
import sqlite3
import subprocess
import sys
import tempfile
import threading
import time

TOP = os.path.dirname(os.path.dirname(os.path.abspath(__file__)))
PROGRAM = sys.argv[1] if len(sys.argv) > 1 else f"{TOP}/pfx"
COLUMNS = [{"name": "Name", "type": "Text", "required": True, "unique": True}, {"name": "Qty", "type": "Number", "indexed": True}]
APP = {"format": "pfx-1", "tables": [{"name": "Stock", "columns": COLUMNS}], "formulas": "", "screens": [{"name": "Home", "controls": []}]}
ROWS, LOOKS, CHANGES, BATCH = 200_000, 10_000, 10_000, 1_000


def post(seq, changes):
    body = json.dumps({"seq": seq, "changes": changes}, separators=(",", ":"))
    return f"POST /desk/d/rows HTTP/1.1\r\nContent-Length: {len(body)}\r\n\r\n{body}".encode()


def added(number):
    return {"op": "add", "table": "Stock", "row": {"Name": f"Item {number}", "Qty": number % 100}}


def adding(rows):
    return [post(place // BATCH + 1, [added(it) for it in range(place + 1, place + BATCH + 1)]) for place in range(0, rows, BATCH)]


def looking(rows, chance):
    return [f"GET /rows/Stock/{chance.randrange(rows)} HTTP/1.1\r\n\r\n".encode() for _ in range(LOOKS)]


def changing(rows, first, chance):
    ids = [chance.randrange(1, rows + 1) for _ in range(CHANGES)]
    return [post(first + place, [{"op": "change", "table": "Stock", "id": it, "row": {"Qty": place % 100}}]) for place, it in enumerate(ids)]


def replies(stream, count):
    """Reads so many replies and returns how many were accepted, and how many found no room."""
    accepted = full = 0
    for _ in range(count):
        head = b"".join(iter(lambda: stream.readline().rstrip(b"\r\n") + b"\n", b"\n"))
        body = stream.read(int(re.search(rb"Content-Length: (\d+)", head)[1]))
        accepted += b" 200 OK\n" in head
        full += b'"rule":"full"' in body
    return accepted, full


def replay(app, parts):
    """Returns the seconds that each part of a run took, from its first byte written to the last of its replies, and the
    memory of the run after each. A part is its requests, and whether they are to be accepted or to find no room."""
    made = subprocess.Popen([PROGRAM, "replay", app], stdin=subprocess.PIPE, stdout=subprocess.PIPE)
    took, used = [], []
    for requests, is_accepted in parts:
        began = time.monotonic()
        sending = threading.Thread(target=lambda: (made.stdin.writelines(requests), made.stdin.flush()))
        sending.start()
        told = replies(made.stdout, len(requests))
        took.append(time.monotonic() - began)
        sending.join()
        if told != ((len(requests), 0) if is_accepted else (0, len(requests))):
            sys.exit(f"{told[0]} of {len(requests)} requests were accepted, and {told[1]} found no room")
        with open(f"/proc/{made.pid}/status") as file:
            used.append(int(re.search(r"VmRSS:\s+(\d+)", file.read())[1]) * 1024)
    made.stdin.close()
    if made.wait():
        sys.exit(f"the run ended with {made.returncode}")
    return took, used


def sqlite(rows, chance):
    """Returns the seconds that adding, looking up and changing take, and the bytes of the database."""
    base = sqlite3.connect(":memory:", isolation_level=None)
    base.execute("CREATE TABLE Stock(ID INTEGER PRIMARY KEY AUTOINCREMENT, Name TEXT NOT NULL UNIQUE, Qty NUMERIC)")
    base.execute("CREATE INDEX by_qty ON Stock(Qty)")
    marks = [time.monotonic()]
    for place in range(0, rows, BATCH):
        base.execute("BEGIN")
        base.executemany("INSERT INTO Stock(Name, Qty) VALUES(?, ?)", [(f"Item {it}", it % 100) for it in range(place + 1, place + BATCH + 1)])
        base.execute("COMMIT")
    marks.append(time.monotonic())
    for _ in range(LOOKS):
        base.execute("SELECT ID, Name, Qty FROM Stock WHERE ID > ? ORDER BY ID LIMIT 101", (chance.randrange(rows),)).fetchall()
    marks.append(time.monotonic())
    for place in range(CHANGES):
        base.execute("BEGIN")
        base.execute("UPDATE Stock SET Qty = ? WHERE ID = ?", (place % 100, chance.randrange(1, rows + 1)))
        base.execute("COMMIT")
    marks.append(time.monotonic())
    pages, = base.execute("PRAGMA page_count").fetchone()
    size, = base.execute("PRAGMA page_size").fetchone()
    return [b - a for a, b in zip(marks, marks[1:])], pages * size


def measure(app, rows):
    """Returns the seconds that adding, looking up and changing take in one run, and the bytes of a row."""
    chance = random.Random(rows)
    begin = [b"GET /rows/Stock/0 HTTP/1.1\r\n\r\n"]
    parts = [(begin, True), (adding(rows), True), (looking(rows, chance), True), (changing(rows, rows // BATCH + 1, chance), True)]
    if rows == ROWS:
        parts.append(([post(rows // BATCH + CHANGES + 1, [added(rows + 1)])], False))
    took, used = replay(app, parts)
    return took[1:4], (used[1] - used[0]) // rows


def main():
    with tempfile.NamedTemporaryFile("w", suffix=".json") as app:
        json.dump(APP, app)
        app.flush()
        for rows in (25_000, 50_000, 100_000, ROWS):
            ours, bytes_a_row = measure(app.name, rows)
            theirs, size = sqlite(rows, random.Random(rows))
            print(f"{rows} rows, in requests of {BATCH}; {LOOKS} pages of 100 rows; {CHANGES} changes of one row")
            for what, here, there in zip(("add", "look up", "change"), ours, theirs):
                print(f"  {what:8} pfx {here:8.2f} s   sqlite3 {there:8.2f} s")
            print(f"  a row    pfx {bytes_a_row:6} B   sqlite3 {size // rows:6} B", flush=True)


if __name__ == "__main__":
    main()
