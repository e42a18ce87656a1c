#!/usr/bin/env python3
"""Says of the rows of test_keeper what a keeper that walks lists answers, and compares.

    bench/keeper_rows.py

Reads crates/test_keeper/stdin, plays each call over lists as plainly as can be said, and holds the answer against the one
in crates/test_keeper/stdout. What goes over a file, the `sql`, `reopen`, `attach` and `seen` of the rows, isn't played. The
status is 1 where an answer differs.
"""
import os
import sys
from collections import namedtuple
from decimal import Decimal

TOP = os.path.dirname(os.path.dirname(os.path.abspath(__file__)))
MOST_WEIGHT = 2048  # of the cells of a row: each weighs 16, and a text its bytes besides
LAST_NUMBER = 2**32 - 1
UNPLAYED = {"new", "sql", "reopen", "attach", "seen"}
Column = namedtuple("Column", "name required unique")
STOCK = ["Stock", "Name:key", "Qty"]


def number(word):
    return Decimal(word) if word not in ("", "-") else None


def column(word):
    """Returns the column of a word: its name, and behind a colon which rules it has."""
    name, _, rules = word.partition(":")
    return Column(name, rules in ("required", "key"), rules in ("unique", "key"))


def schema(words):
    """Returns a table's name and columns."""
    return words[0], [column(it) for it in words[1:]]


def show(rows):
    """Writes rows as the program does, each with its number, its name and its quantity."""
    names = [(at, "Blank()" if name is None else f'"{name}"', quantity) for at, name, quantity in rows]
    cells = [f'; {at} {name} {"Blank()" if quantity is None else quantity}' for at, name, quantity in names]
    return f"{len(rows)} rows" + "".join(cells)


def broken_rule(columns, rows, at, cells):
    """Returns the first rule of a column that the cells of a row break beside the other rows, if any."""
    for place, column in enumerate(columns):
        if column.required and cells[place] in (None, ""):
            return f"refused: required of column {place + 1}"
    for place, column in enumerate(columns):
        others = [row[place + 1] for row in rows if row[0] != at]
        if column.unique and cells[place] is not None and cells[place] in others:
            return f"refused: unique of column {place + 1}"
    return "refused: size" if 32 + len((cells[0] or "").encode()) > MOST_WEIGHT else None


class Keeper:
    """Rows of a number, a name and a quantity, by rising numbers. The calls of some numbers fail."""

    def __init__(self, fails):
        self.fails, self.calls = fails, 0
        self.is_shaped = False
        self.kept = None  # the name of the table that is kept and its columns
        self.rows, self.last = [], 0
        self.then = None  # the table, the rows and the last number as a transaction began, where one is begun

    def next_fails(self):
        self.calls += 1
        return self.calls in self.fails

    def shape(self, wanted):
        if self.then is not None:
            return "not now"
        if self.next_fails():
            self.is_shaped = False
            return "failed"
        if self.kept not in (None, wanted):
            return "another is kept: " + ".".join([self.kept[0], *(it.name for it in self.kept[1])])
        self.kept = wanted
        self.is_shaped = len(wanted[1]) == 2
        return "kept"

    def begin(self):
        if self.then is not None:
            return "not now"
        if self.next_fails():
            return "failed"
        self.then = self.kept, list(self.rows), self.last
        return "done"

    def commit(self):
        if not self.is_shaped or self.then is None:
            return "not now"
        if self.next_fails():
            self.back()
            return "failed"
        self.then = None
        return "done"

    def back(self):
        if self.then is None:
            return "not now"
        (self.kept, self.rows, self.last), self.then = self.then, None
        return "done"

    def skip(self, upto):
        if self.then is None:
            return "not now"
        self.last = max(self.last, upto)
        return "done"

    def change(self, act, *words):
        """Changes a row, if one may be changed now."""
        if not self.is_shaped or self.then is None:
            return "not now"
        return "failed" if self.next_fails() else act(*words)

    def put(self, at, name, quantity):
        """Puts a new row, or other cells into the row of a number."""
        if at is not None and all(row[0] != at for row in self.rows):
            return "no row"
        if broken := broken_rule(self.kept[1], self.rows, at, (name, quantity)):
            return broken
        if at is None:
            if self.last == LAST_NUMBER:
                return "refused: full"
            at = self.last = self.last + 1
        self.rows = sorted([row for row in self.rows if row[0] != at] + [(at, name, quantity)])
        return f"row {at}"

    def remove(self, at):
        before = len(self.rows)
        self.rows = [row for row in self.rows if row[0] != at]
        return "removed" if len(self.rows) < before else "no row"

    def reshape(self, wanted, sources):
        """Moves the table to another, of which each column comes from one of the old table, or from none."""
        if not self.is_shaped or self.then is None:
            return "not now"
        if self.next_fails():
            self.back()
            return "failed"
        moved = [(at, name if sources[0] == "1" else None, quantity if sources[1] == "2" else None) for at, name, quantity in self.rows if sources]
        for at, *cells in moved:
            if broken := broken_rule(wanted[1], moved, at, cells):
                return f"table 0 {broken}"
        self.kept, self.rows, self.last = wanted, moved, self.last if sources else 0
        return "moved"

    def ask(self, what, least, most):
        if not self.is_shaped:
            return "not now"
        if self.next_fails():
            return "failed"
        if what in ("page", "blanks"):
            found = [row for row in self.rows if least is None or row[0] >= least]
            found = [row for row in found if what == "page" or row[2] is None]
        else:
            found = [row for row in self.rows if least is None or row[2] is not None and row[2] >= least]
            found.sort(key=lambda row: (row[2] is None, -(row[2] or 0)))
        found = found if most is None else found[:most]
        if what == "count":
            return f"{len(found)}"
        if what == "total":
            given = [row[2] for row in found if row[2] is not None]
            return f"{len(given)} of sum {int(sum(given) * 10_000)}"
        return show(found)

    def obey(self, line):
        """Returns what the call of a line answers."""
        call, *words = line.split(" ")
        match call:
            case "shape":
                return self.shape(schema(words or STOCK))
            case "other":
                return self.shape(schema(STOCK[:2]))
            case "reshape":
                return self.reshape(schema(words[:3]), words[3:])
        words += [""] * (3 - len(words))
        match call:
            case "begin" | "commit" | "back":
                return getattr(self, call)()
            case "skip":
                return self.skip(int(words[0]))
            case "insert":
                return self.change(self.put, None, words[0].strip("-"), number(words[1]))
            case "replace":
                return self.change(self.put, int(words[0]), words[1].strip("-"), number(words[2]))
            case "remove":
                return self.change(self.remove, int(words[0]))
        return self.ask(call, number(words[0]), int(words[1]) if words[1] else None)


def main():
    folder = f"{TOP}/crates/test_keeper"
    with open(f"{folder}/stdin", encoding="utf-8") as file:
        lines = file.read().splitlines()
    with open(f"{folder}/stdout", encoding="utf-8") as file:
        # (what another keeper answers otherwise stands in a line of its own, with two spaces before it)
        written = [line for line in file.read().splitlines() if not line.startswith("  ")]
    keeper, wrong, played = Keeper([]), 0, 0
    for line, answer in zip(lines, written, strict=True):
        if line.startswith("new"):
            keeper = Keeper([int(word) for word in line.split(" ")[1:]])
        if line.startswith("#") or line.split(" ")[0] in UNPLAYED:
            continue
        played += 1
        told = f"{line}: {keeper.obey(line)}"
        if told != answer:
            wrong += 1
            print(f"{answer}\n  over lists {told}")
    print(f"{played} calls, {wrong} answered otherwise")
    sys.exit(1 if wrong else 0)


if __name__ == "__main__":
    main()
