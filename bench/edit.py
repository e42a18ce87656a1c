#!/usr/bin/env python3
"""Times edits of one formula among many, beside loading the app that has them.

    bench/edit.py [PFX]

PFX is the built program, ./pfx where none is given. For apps of 500, 1,000 and 2,000 formulas of each kind it prints in
milliseconds of processor time the median of 11 runs that load the app and answer nothing, and what one edit takes: the same
for runs of 21 edits of one formula, less the loading, by their number. An edit must take no longer than loading."""
import json
import os
import resource
import statistics
import subprocess
import sys
import tempfile

TOP = os.path.dirname(os.path.dirname(os.path.abspath(__file__)))
PROGRAM = sys.argv[1] if len(sys.argv) > 1 else f"{TOP}/pfx"
RUNS, EDITS = 11, 21


def named(lines):
    return {"format": "pfx-1", "formulas": "\n".join(lines), "screens": [{"name": "Home", "controls": []}]}


def controls(count):
    """An app whose formulas are named ones and those of labels, up to 500, each with two."""
    labels = min(500, count // 4)
    lines = [f"A{it} = {it} + 2 * 3;" for it in range(count - 2 * labels)]
    shown = [{"name": f"L{it}", "kind": "Label", "properties": {"Visible": f"A{it} > 3", "Text": f"A{it} & L{(it + 1) % labels}.Visible"}} for it in range(labels)]
    return {**named(lines), "screens": [{"name": "Home", "controls": shown}]}


KINDS = {
    "numbers alone": lambda count: named(f"A{it} = {it} + 2 * 3;" for it in range(count)),
    "each over the one before it": lambda count: named(["A0 = 1;"] + [f"A{it} = A{it - 1} + 1;" for it in range(1, count)]),
    "half of them on labels": controls,
}


def edits(count):
    """So many edits of one formula in turn, by one desk."""
    for it in range(count):
        body = json.dumps({"seq": it + 1, "cell": "A0", "text": f"{it} + 1"}, separators=(",", ":"))
        yield f"POST /desk/d/edit HTTP/1.1\r\nContent-Length: {len(body)}\r\n\r\n{body}"


def median(app, count):
    """Returns the median of the processor time of runs that load this app and answer so many edits, in milliseconds."""
    with tempfile.NamedTemporaryFile("w", suffix=".json") as file:
        json.dump(app, file)
        file.flush()
        took = []
        for _ in range(RUNS):
            before = resource.getrusage(resource.RUSAGE_CHILDREN)
            made = subprocess.run([PROGRAM, "replay", file.name], input="".join(edits(count)).encode(), stdout=subprocess.PIPE, check=True)
            after = resource.getrusage(resource.RUSAGE_CHILDREN)
            if made.stdout.count(b" 200 OK\r\n") != count:
                sys.exit("an edit was refused")
            took.append(after.ru_utime + after.ru_stime - before.ru_utime - before.ru_stime)
    return 1000 * statistics.median(took)


def main():
    for kind, app_of in KINDS.items():
        for count in (500, 1_000, 2_000):
            app = app_of(count)
            load = median(app, 0)
            edit = (median(app, EDITS) - load) / EDITS
            print(f"{kind}, {count} formulas: loading {load:.0f} ms, an edit {edit:.0f} ms", flush=True)


if __name__ == "__main__":
    main()
