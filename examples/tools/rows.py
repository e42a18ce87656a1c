#!/usr/bin/env python3
"""Prints the rows of a table of a database file as CSV, or the names of its tables.

    examples/tools/rows.py DB [TABLE]

The file is read while nobody has it, or from a copy with its log beside it (docs/RUNNING.md). A blank cell is empty. A
text is as it stands, and so are numbers, dates and `true` and `false`.
"""
import csv
import datetime
import decimal
import sqlite3
import sys

EPOCH = datetime.date(1970, 1, 1)


def pieces(body):
    """Yields the pieces of a body: each is four bytes of length, and then the bytes."""
    while body:
        length = int.from_bytes(body[:4], "big")
        yield body[4 : 4 + length]
        body = body[4 + length :]


def table_of(body):
    """Returns a table's name and its columns, each with its type: 0 Number, 1 Text, 2 Boolean, 3 Date."""
    name, rest = next(pieces(body)), body
    rest = rest[4 + len(name) :]
    columns = []
    while rest:
        column = next(pieces(rest))
        columns.append((column.decode(), rest[4 + len(column)]))
        rest = rest[8 + len(column) :]  # the type, and whether it is required, unique and indexed
    return name.decode(), columns


def value(key, kind):
    """Returns the text of a cell by its key: 0 is blank, and else 1 stands before the value."""
    if key[0] == 0:
        return ""
    count = int.from_bytes(key[1:], "big")
    if kind == 0:
        return format((decimal.Decimal(count - 2**63) / 10_000).normalize(), "f")
    if kind == 1:
        return key[1:].decode()
    if kind == 2:
        return "true" if count else "false"
    return (EPOCH + datetime.timedelta(days=count - 2**31)).isoformat()


def main(file, wanted=None):
    base = sqlite3.connect(f"file:{file}?mode=ro", uri=True)
    (shape,) = base.execute("SELECT body FROM shape").fetchone()
    tables = [table_of(it) for it in pieces(shape)]
    if wanted is None:
        return print("\n".join(name for name, _ in tables))
    place = next((it for it, (name, _) in enumerate(tables) if name == wanted), None)
    if place is None:
        sys.exit(f"no table {wanted}")
    columns = tables[place][1]
    out = csv.writer(sys.stdout, lineterminator="\n")
    out.writerow(["ID", *(name for name, _ in columns)])
    for row, body in base.execute("SELECT id, body FROM lines WHERE tab = ? ORDER BY id", (place,)):
        out.writerow([row, *(value(key, kind) for key, (_, kind) in zip(pieces(body), columns))])


if __name__ == "__main__":
    main(*sys.argv[1:])
