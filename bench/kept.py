#!/usr/bin/env python3
"""Times what a view costs after one change, over apps of 2,000 formulas, and what requests cost where 256 sessions are open.

    bench/kept.py [PFX]

PFX is the built program, ./pfx where none is given. In a chain each formula leans on the one before it; in a fan all lean on one,
and labels show them by fours. A session taps a button and looks at its view, a hundred times each: the button changes what all
formulas stand on, what the first one makes the same of, what one formula stands on, or what none does. Then 256 sessions look at
their views of a table of 1,000 rows in turn: once opened, again, after a row that a desk adds, and after an event of each. Every
reply must be accepted, and the last view after each kind of change must show what is due."""
import json
import os
import re
import subprocess
import sys
import tempfile
import threading
import time

TOP = os.path.dirname(os.path.dirname(os.path.abspath(__file__)))
PROGRAM = sys.argv[1] if len(sys.argv) > 1 else f"{TOP}/pfx"
TIMES, SESSIONS, ROUNDS, ROWS = 100, 256, 4, 1_000
TAPS = {"All": "Set(all, all + 1)", "Same": "Set(same, same + 1)", "One": "Set(one, one + 1)", "None": "Set(none, none + 1)"}
FIRST = "F0 = all + If(same < 0, 1, 0);"


def label(name, text):
    return {"name": name, "kind": "Label", "properties": {"Text": text}}


def file_of(formulas, labels, start="Set(all, 0); Set(same, 0); Set(one, 0); Set(none, 0)"):
    buttons = [{"name": name, "kind": "Button", "properties": {"OnSelect": text}} for name, text in TAPS.items()]
    return {"format": "pfx-1", "formulas": formulas, "onStart": start, "screens": [{"name": "Home", "controls": buttons + labels}]}


def chain():
    """2,000 formulas: each of 1,993 leans on the one before it, and the last is shown."""
    return file_of(FIRST + "".join(f"F{it} = F{it - 1} + 1;" for it in range(1, 1993)), [label("Last", "F1992"), label("Own", "one")]), lambda all, one: {"Last": 1992 + all, "Own": one}


def fan():
    """2,000 formulas: 1,595 lean on the first, and 399 labels show four of them each, or the rest."""
    labels = [label(f"L{it}", " + ".join(f"F{leaf}" for leaf in range(it * 4 + 1, min(it * 4 + 5, 1596)))) for it in range(399)]
    leaves = "F1 = F0 + 1 + one;" + "".join(f"F{it} = F0 + {it};" for it in range(2, 1596))
    return file_of(FIRST + leaves, labels), lambda all, one: {"L0": 10 + 4 * all + one, "L398": 1593 + 1594 + 1595 + 3 * all}


def shop():
    """The small app of a stock, in which a session counts its clicks."""
    columns = [{"name": "Name", "type": "Text", "required": True, "unique": True}, {"name": "Qty", "type": "Number", "indexed": True}]
    controls = [label("Count", '"Low: " & LowCount'), label("Sum", "Total"), label("Clicks", "counter"), {"name": "Add", "kind": "Button", "properties": {"OnSelect": "Set(counter, counter + 1)"}}]
    return {"format": "pfx-1", "tables": [{"name": "Stock", "columns": columns}], "formulas": "Low = 5; LowCount = CountRows(Filter(Stock, Qty < Low)); Total = Sum(Stock, Qty);",
            "onStart": "Set(counter, 0)", "screens": [{"name": "Home", "controls": controls}]}


def get(path, method="GET"):
    return f"{method} {path} HTTP/1.1\r\n\r\n".encode()


def post(path, body):
    text = json.dumps(body, separators=(",", ":"))
    return f"POST {path} HTTP/1.1\r\nContent-Length: {len(text)}\r\n\r\n{text}".encode()


def event(session, seq, control):
    return post(f"/s/{session}/event", {"seq": seq, "control": control, "event": "OnSelect"})


class Run:
    """A replay of an app, which is sent requests in parts."""

    def __init__(self, app):
        self.file = tempfile.NamedTemporaryFile("w", suffix=".json")
        json.dump(app, self.file)
        self.file.flush()
        self.made = subprocess.Popen([PROGRAM, "replay", self.file.name], stdin=subprocess.PIPE, stdout=subprocess.PIPE)

    def send(self, requests):
        """Returns the seconds that these took, and the last reply's body."""
        began = time.monotonic()
        sending = threading.Thread(target=lambda: (self.made.stdin.writelines(requests), self.made.stdin.flush()))
        sending.start()
        for _ in requests:
            head = b"".join(iter(lambda: self.made.stdout.readline().rstrip(b"\r\n") + b"\n", b"\n"))
            body = self.made.stdout.read(int(re.search(rb"Content-Length: (\d+)", head)[1]))
            if b" 200 OK\n" not in head:
                sys.exit(f"refused: {body[:300]}")
        took = time.monotonic() - began
        sending.join()
        return took, body

    def end(self):
        self.made.stdin.close()
        if self.made.wait():
            sys.exit(f"the run ended with {self.made.returncode}")


def shown(body):
    return {it["name"]: it["values"].get("Text") for it in json.loads(body)["controls"] if "values" in it}


def after_a_change(name, app, due):
    """Tells the milliseconds of a view after each kind of change, of which those of the event alone are left out."""
    run, seq, counts = Run(app), 0, dict.fromkeys(TAPS, 0)
    run.send([get("/s/a", "PUT")])
    first, _ = run.send([get("/s/a/view")])
    cells = [f"first {first * 1000:.1f}"]
    for tap in TAPS:
        both, body = run.send([it for at in range(TIMES) for it in (event("a", seq + at + 1, tap), get("/s/a/view"))])
        alone, _ = run.send([event("a", seq + at + 1, tap) for at in range(TIMES, 2 * TIMES)])
        counts[tap] += TIMES
        want = {key: str(value) for key, value in due(counts["All"], counts["One"]).items()}
        if any(shown(body)[key] != value for key, value in want.items()):
            sys.exit(f"{name}, {tap}: wanted {want}, shown {shown(body)}")
        counts[tap] += TIMES
        seq += 2 * TIMES
        cells.append(f"{tap.lower()} {(both - alone) * 1000 / TIMES:.2f}")
    still, _ = run.send([get("/s/a/view")] * TIMES)
    run.end()
    print(f"{name:>6}: milliseconds of a view: {', '.join(cells)}, unchanged {still * 1000 / TIMES:.2f}", flush=True)


def many_sessions():
    """Tells the requests a second of 256 sessions."""
    run, names = Run(shop()), [f"s{it}" for it in range(SESSIONS)]
    run.send([post("/desk/d/rows", {"seq": 1, "changes": [{"op": "add", "table": "Stock", "row": {"Name": f"Row {it}", "Qty": it}} for it in range(ROWS)]})])
    run.send([get(f"/s/{it}", "PUT") for it in names])
    views = [get(f"/s/{it}/view") for it in names]
    rates = {}
    for what, parts in {
        "first views": [views],
        "views again": [views] * ROUNDS,
        "views after a row": [[post("/desk/d/rows", {"seq": at + 2, "changes": [{"op": "add", "table": "Stock", "row": {"Name": f"New {at}", "Qty": 100 + at}}]}), *views] for at in range(ROUNDS)],
        "events and views": [[it for name in names for it in (event(name, at + 1, "Add"), get(f"/s/{name}/view"))] for at in range(ROUNDS)],
        "rows": [[post("/desk/d/rows", {"seq": ROUNDS + 2 + at, "changes": [{"op": "add", "table": "Stock", "row": {"Name": f"Last {at}", "Qty": 200 + at}}]}) for at in range(TIMES)]],
    }.items():
        took = [run.send(part)[0] for part in parts]
        rates[what] = sum(map(len, parts)) / sum(took)
    run.end()
    print(f"{SESSIONS} sessions, requests a second: {', '.join(f'{what} {rate:.0f}' for what, rate in rates.items())}")


def main():
    after_a_change("chain", *chain())
    after_a_change("fan", *fan())
    many_sessions()


if __name__ == "__main__":
    main()
