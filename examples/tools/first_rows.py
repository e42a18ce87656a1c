#!/usr/bin/env python3
"""Tells which formulas of an app stand on the first rows of a table alone, also where others stand between.

    examples/tools/first_rows.py APP [PFX]

`pfx check APP` tells where formulas take rows: whole tables, or the first ones, at most as many as the app's row limit.
A label over such a formula shows what holds of the first rows, though nothing says so of the label itself. Here stands a
line for each formula that leans on one, with the way down to it, from the replies to GET /plan and GET /graph. What passes
through variables and collections isn't followed: the graph doesn't tell what formulas change.
"""
import json
import os
import re
import subprocess
import sys

PROGRAM = os.path.dirname(os.path.abspath(__file__)) + "/../../pfx"
ASKED = b"GET /plan HTTP/1.1\r\n\r\nGET /graph HTTP/1.1\r\n\r\n"
# What a formula reads of a control stands on the formula that gives it.
THROUGH = {"input": ("Default", "DefaultDate"), "chosen": ("Items",)}


def replies(app, program):
    told = subprocess.run([program, "replay", app], input=ASKED, capture_output=True, check=False)
    if told.returncode:
        sys.exit(told.stderr.decode())
    return [json.loads(it) for it in re.findall(rb"\r\n\r\n(\{.*?\})(?=HTTP/|\Z)", told.stdout)]


def read_cells(read, cells):
    """Returns the formulas that a formula leans on where it reads this."""
    kind, _, name = read.partition(" ")
    spelt = "'" + name.replace("'", "''") + "'" if re.search("[.']", name) else name
    names = [f"{spelt}.{it}" for it in THROUGH.get(kind, ())] if name else []
    return [it for it in [read, *names] if it in cells]


def ways(sites, cells):
    """Yields for each formula that leans on first rows the table and the way down to it, the formula itself first."""
    firsts = {}
    for site in sites:
        if not site["delegated"]:
            firsts.setdefault(site["cell"], site["table"])
    for cell in cells:
        todo, seen = [[cell]], {cell}
        while todo:
            way = todo.pop(0)
            if way[-1] in firsts:
                yield firsts[way[-1]], way
                break
            lower = [it for read in cells[way[-1]] for it in read_cells(read, cells) if it not in seen]
            seen.update(lower)
            todo += [[*way, it] for it in lower]


def main(app, program=PROGRAM):
    plan, graph = replies(app, program)
    cells = {it["cell"]: it["reads"] for it in graph["cells"]}
    for table, way in ways(plan["sites"], cells):
        print(f"{way[0]}: first rows of {table}" + "".join(f" <- {it}" for it in way[1:]))


if __name__ == "__main__":
    main(*sys.argv[1:])
