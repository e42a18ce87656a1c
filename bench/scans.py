#!/usr/bin/env python3
"""Times a view with ten delegated queries over many rows, beside the same queries by Python's sqlite3 in memory.

    bench/scans.py [PFX]

PFX is the built program, ./pfx where none is given. Over tables of 25,000 to 200,000 rows, with the same indexes on both sides,
a desk adds the rows in requests of 1,000 changes; then the view of one screen with ten labels, each over a query of its own, is
read 100 times. Told are the milliseconds of one view, and those of the same ten queries, in one run each. Each query has a range of
at most 1,000 rows, whatever the table's size, so that a view should cost the same over each table."""
import json
import sqlite3
import sys
import tempfile
import time

from rows import BATCH, COLUMNS, adding, replay

VIEWS = 100
SIZES = (25_000, 50_000, 100_000, 200_000)
QUERIES = [
    ("CountRows(Filter(Stock, ID > 24000, ID <= 25000))", "SELECT COUNT(*) FROM Stock WHERE ID > 24000 AND ID <= 25000"),
    ("LookUp(Stock, ID = 12345).Qty", "SELECT Qty FROM Stock WHERE ID = 12345"),
    ('LookUp(Stock, Name = "Item 23456").ID', "SELECT ID FROM Stock WHERE Name = 'Item 23456'"),
    ("Sum(Filter(Stock, ID <= 1000), Qty)", "SELECT SUM(Qty) FROM Stock WHERE ID <= 1000"),
    ("Max(Filter(Stock, ID > 1000, ID <= 2000), Qty)", "SELECT MAX(Qty) FROM Stock WHERE ID > 1000 AND ID <= 2000"),
    ("Min(Filter(Stock, ID > 2000, ID <= 3000), Qty)", "SELECT MIN(Qty) FROM Stock WHERE ID > 2000 AND ID <= 3000"),
    ("Average(Filter(Stock, ID > 3000, ID <= 4000), Qty)", "SELECT AVG(Qty) FROM Stock WHERE ID > 3000 AND ID <= 4000"),
    ("CountRows(Filter(Stock, ID > 4000, ID <= 5000, Qty < 50))", "SELECT COUNT(*) FROM Stock WHERE ID > 4000 AND ID <= 5000 AND Qty < 50"),
    ("First(Filter(Stock, Qty > 99)).ID", "SELECT ID FROM Stock WHERE Qty > 99 ORDER BY ID LIMIT 1"),
    ('CountRows(Filter(Stock, Name = "Item 1", Qty = 1))', "SELECT COUNT(*) FROM Stock WHERE Name = 'Item 1' AND Qty = 1"),
]
APP = {
    "format": "pfx-1",
    "tables": [{"name": "Stock", "columns": COLUMNS}],
    "screens": [{"name": "Home", "controls": [{"name": f"L{place}", "kind": "Label", "properties": {"Text": text}} for place, (text, _) in enumerate(QUERIES)]}],
}


def sqlite(rows):
    """Returns the seconds that the ten queries take, over as many runs as there are views."""
    base = sqlite3.connect(":memory:", isolation_level=None)
    base.execute("CREATE TABLE Stock(ID INTEGER PRIMARY KEY AUTOINCREMENT, Name TEXT NOT NULL UNIQUE, Qty NUMERIC)")
    base.execute("CREATE INDEX by_qty ON Stock(Qty)")
    base.execute("BEGIN")
    base.executemany("INSERT INTO Stock(Name, Qty) VALUES(?, ?)", [(f"Item {it}", it % 100) for it in range(1, rows + 1)])
    base.execute("COMMIT")
    began = time.monotonic()
    for _ in range(VIEWS):
        for _, statement in QUERIES:
            base.execute(statement).fetchall()
    return time.monotonic() - began


def main():
    views = [b"GET /s/a/view HTTP/1.1\r\n\r\n"] * VIEWS
    with tempfile.NamedTemporaryFile("w", suffix=".json") as app:
        json.dump(APP, app)
        app.flush()
        for rows in SIZES:
            took, _ = replay(app.name, [([b"PUT /s/a HTTP/1.1\r\n\r\n"], True), (adding(rows), True), (views, True)])
            here, there = took[2] * 1000 / VIEWS, sqlite(rows) * 1000 / VIEWS
            print(f"{rows} rows, added in requests of {BATCH}: a view of ten queries  pfx {here:8.3f} ms   sqlite3 {there:8.3f} ms", flush=True)


if __name__ == "__main__":
    sys.exit(main())
