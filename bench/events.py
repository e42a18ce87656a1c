#!/usr/bin/env python3
"""Times events as rows grow, and as what a session holds grows.

    bench/events.py [PFX]

PFX is the built program, ./pfx where none is given. Over tables of 0 to 196,000 rows, which a desk adds, a session sends 100
events: of a button that counts and adds a row, of one that changes the row of a number, of one that asks for a count, and of one
that only sets a variable. Then a session with a collection of up to 10,000 rows sends events that leave it alone, and events
that add a row to it. Each is told in events a second, from the first byte sent to the last reply. Every event must be accepted,
and answer what is due."""
import json
import os
import re
import subprocess
import sys
import tempfile
import threading
import time

TOP = os.path.dirname(os.path.dirname(os.path.abspath(__file__)))
PROGRAM = sys.argv[1] if len(sys.argv) > 1 else f"{TOP}/pfx"
EVENTS, BATCH = 100, 1_000
SIZES = (0, 25_000, 50_000, 100_000, 196_000)
HELD = (0, 1_000, 5_000, 10_000)
COLUMNS = [{"name": "Name", "type": "Text", "required": True, "unique": True}, {"name": "Qty", "type": "Number", "indexed": True}]
BUTTONS = {
    "Add": 'Set(counter, counter + 1); Patch(Stock, Defaults(Stock), {Name: "Item " & counter, Qty: counter})',
    "Change": "Set(counter, counter + 1); Patch(Stock, {ID: counter}, {Qty: counter})",
    "Ask": "Set(counter, CountRows(Filter(Stock, Qty < 0)))",
    "Count": "Set(counter, counter + 1)",
    "Hold": "Collect(held, {Place: counter, Word: \"word\"})",
}


def app():
    """The small app of the worked rows, with further buttons."""
    controls = [{"name": "Count_", "kind": "Label", "properties": {"Text": '"Low: " & LowCount'}}, {"name": "Clicks", "kind": "Label", "properties": {"Text": "counter"}}]
    controls += [{"name": name, "kind": "Button", "properties": {"OnSelect": text}} for name, text in BUTTONS.items()]
    controls += [{"name": "List", "kind": "Gallery", "properties": {"Items": "Sort(Stock, Qty, SortOrder.Descending)"}},
                 {"name": "Line", "kind": "Label", "in": "List", "properties": {"Text": "ThisItem.Name"}}]
    return {"format": "pfx-1", "tables": [{"name": "Stock", "columns": COLUMNS}], "formulas": "Low = 5; LowCount = CountRows(Filter(Stock, Qty < Low));",
            "onStart": "Set(counter, 0)", "screens": [{"name": "Home", "controls": controls}]}


def post(path, body):
    text = json.dumps(body, separators=(",", ":"))
    return f"POST {path} HTTP/1.1\r\nContent-Length: {len(text)}\r\n\r\n{text}".encode()


def adding(rows):
    """Returns requests that add so many rows."""
    return [post("/desk/d/rows", {"seq": place // BATCH + 1, "changes": [{"op": "add", "table": "Stock", "row": {"Name": f"Row {it}", "Qty": it % 100}}
            for it in range(place + 1, place + BATCH + 1)]}) for place in range(0, rows, BATCH)]


class Session:
    """The numbered events of a session."""

    def __init__(self):
        self.seq = 0

    def events(self, control, count=EVENTS):
        self.seq += count
        return [post("/s/a/event", {"seq": it, "control": control, "event": "OnSelect"}) for it in range(self.seq - count + 1, self.seq + 1)]


def replies(stream, count):
    """Reads so many replies, and returns the bodies of those that weren't accepted or are errors."""
    wrong = []
    for _ in range(count):
        head = b"".join(iter(lambda: stream.readline().rstrip(b"\r\n") + b"\n", b"\n"))
        body = stream.read(int(re.search(rb"Content-Length: (\d+)", head)[1]))
        if b" 200 OK\n" not in head or b'"kind"' in body:
            wrong.append(body)
    return wrong


def replay(file, parts):
    """Returns the seconds that each part of a run took."""
    made = subprocess.Popen([PROGRAM, "replay", file], stdin=subprocess.PIPE, stdout=subprocess.PIPE)
    took = []
    for requests in parts:
        began = time.monotonic()
        sending = threading.Thread(target=lambda: (made.stdin.writelines(requests), made.stdin.flush()))
        sending.start()
        wrong = replies(made.stdout, len(requests))
        took.append(time.monotonic() - began)
        sending.join()
        if wrong:
            sys.exit(f"{len(wrong)} of {len(requests)} were refused or are errors: {wrong[0][:300]}")
    made.stdin.close()
    if made.wait():
        sys.exit(f"the run ended with {made.returncode}")
    return took


BEGIN = [b"PUT /s/a HTTP/1.1\r\n\r\n"]
ANEW = [b"DELETE /s/a HTTP/1.1\r\n\r\n", b"PUT /s/a HTTP/1.1\r\n\r\n"]


def over_rows(file, rows):
    """Returns the events a second of each button over so many rows."""
    names, parts = ["Add", "Change", "Ask", "Count"], [BEGIN, adding(rows)]
    for name in names:
        parts += [ANEW, Session().events(name)]
    took = replay(file, parts)
    return {name: EVENTS / took[3 + 2 * at] for at, name in enumerate(names)}


def over_held(file, count):
    """Returns the events a second of a session whose collection has so many rows."""
    session = Session()
    took = replay(file, [BEGIN, session.events("Hold", count), session.events("Count"), session.events("Hold")])
    return {"Count": EVENTS / took[2], "Hold": EVENTS / took[3]}


def main():
    with tempfile.NamedTemporaryFile("w", suffix=".json") as file:
        json.dump(app(), file)
        file.flush()
        for rows in SIZES:
            found = over_rows(file.name, rows)
            print(f"{rows:7} rows: " + ", ".join(f"{name} {rate:.0f}" for name, rate in found.items()) + " events a second", flush=True)
        for count in HELD:
            found = over_held(file.name, count)
            print(f"{count:7} rows held by the session: " + ", ".join(f"{name} {rate:.0f}" for name, rate in found.items()) + " events a second", flush=True)


if __name__ == "__main__":
    main()
