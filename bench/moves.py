#!/usr/bin/env python3
"""Times replacements of an app whose rows move, beside the same work by Python's sqlite3.

    bench/moves.py [PFX]

PFX is the built program, ./pfx where none is given. Over tables of 25,000 to 200,000 rows a desk replaces the app by one in
which the table and a column have other names, and that by the first one again, six times, over rows in memory and over a
database's file. Told are the medians in seconds, with the memory that a replacement leaves taken for each row. Beside them
stand what sqlite3 takes in a file of its own to rename both, and to copy the rows into a new table with its indexes.
"""
import json
import sqlite3
import statistics
import subprocess
import tempfile
import time

from rows import APP, BATCH, PROGRAM, adding, replay
from serve import ask, free_port, listen

REPLACEMENTS = 6
NAMES = [("Stock", "Qty"), ("Parts", "Amount")]


def named(table, column):
    """The app under these names."""
    return json.loads(json.dumps(APP).replace("Stock", table).replace("Qty", column))


def replacements(rows):
    """The bodies of replacements behind so many rows: from the first names to the others, and back, in turn."""
    for place in range(REPLACEMENTS):
        (table, column), (new, to) = NAMES[::-1] if place % 2 else NAMES
        moves = [{"table": table, "to": new}, {"table": table, "column": column, "to": to}]
        yield json.dumps({"seq": rows // BATCH + 1 + place, "app": named(new, to), "moves": moves}, separators=(",", ":"))


def in_memory(app, rows):
    """Returns the median of the seconds of a replacement, and the bytes that are taken more behind it, for each row."""
    posts = [f"POST /desk/d/app HTTP/1.1\r\nContent-Length: {len(it)}\r\n\r\n{it}".encode() for it in replacements(rows)]
    took, used = replay(app, [(adding(rows), True)] + [([it], True) for it in posts])
    return statistics.median(took[1:]), (max(used[1:]) - used[0]) // rows


def in_file(app, folder, rows):
    """Returns the median of the seconds of a replacement over a new database."""
    port = free_port()
    program = subprocess.Popen([PROGRAM, "serve", app, f"{folder}/rows{rows}.db", str(port)])
    listen(port)
    try:
        for it in adding(rows):
            ask(port, "POST", "/desk/d/rows", it.split(b"\r\n\r\n", 1)[1])
        took = []
        for body in replacements(rows):
            began = time.monotonic()
            ask(port, "POST", "/desk/d/app", body)
            took.append(time.monotonic() - began)
        return statistics.median(took)
    finally:
        program.kill()
        program.wait()


def timed(base, *statements):
    """Returns the seconds of statements in one transaction."""
    began = time.monotonic()
    for it in ("BEGIN", *statements, "COMMIT"):
        base.execute(it)
    return time.monotonic() - began


def sqlite(folder, rows):
    """Returns the seconds that renaming a table and a column takes, and copying into a new table."""
    base = sqlite3.connect(f"{folder}/plain{rows}.db", isolation_level=None)
    made = "CREATE TABLE {}(ID INTEGER PRIMARY KEY AUTOINCREMENT, Name TEXT NOT NULL UNIQUE, {} NUMERIC)"
    timed(base, made.format("Stock", "Qty"), "CREATE INDEX by_qty ON Stock(Qty)")
    base.execute("BEGIN")
    base.executemany("INSERT INTO Stock(Name, Qty) VALUES(?, ?)", [(f"Item {it}", it % 100) for it in range(1, rows + 1)])
    base.execute("COMMIT")
    renaming = timed(base, "ALTER TABLE Stock RENAME TO Parts", "ALTER TABLE Parts RENAME COLUMN Qty TO Amount")
    copying = timed(base, made.format("Copy", "Held"), "INSERT INTO Copy SELECT ID, Name, Amount FROM Parts", "CREATE INDEX by_held ON Copy(Held)", "DROP TABLE Parts")
    base.close()
    return renaming, copying


def main():
    with tempfile.TemporaryDirectory() as folder:
        app = f"{folder}/app.json"
        with open(app, "w") as file:
            json.dump(APP, file)
        for rows in (25_000, 50_000, 100_000, 200_000):
            memory, more = in_memory(app, rows)
            renaming, copying = sqlite(folder, rows)
            print(f"{rows} rows: in memory {memory:.3f} s, {more} B a row more; in a file {in_file(app, folder, rows):.3f} s; sqlite3 renames in {renaming:.3f} s and copies in {copying:.3f} s", flush=True)


if __name__ == "__main__":
    main()
