#!/usr/bin/env python3
"""Kills a server while rows are posted, and looks at what its database has then.

    bench/crashes.py [PFX [TIMES [SEED]]]

PFX is the built program, ./pfx where none is given. The server is killed TIMES times, 100 if not said, each time at a
random moment of a stream of requests. Every request adds five rows, and each third one is refused for its last row. Once
the server is started again its rows must be those of all requests that were accepted; of the one that was cut off there
may be all rows or none, and of a refused one there is none.
"""
import http.client
import json
import os
import random
import socket
import sqlite3
import subprocess
import sys
import tempfile
import threading
import time

TOP = os.path.dirname(os.path.dirname(os.path.abspath(__file__)))
PROGRAM = sys.argv[1] if len(sys.argv) > 1 else f"{TOP}/pfx"
TIMES = int(sys.argv[2]) if len(sys.argv) > 2 else 100
CHANCE = random.Random(int(sys.argv[3]) if len(sys.argv) > 3 else 1)
COLUMNS = [{"name": "Name", "type": "Text", "required": True, "unique": True}, {"name": "Qty", "type": "Number", "indexed": True}]
APP = {"format": "pfx-1", "tables": [{"name": "Stock", "columns": COLUMNS}], "formulas": "", "screens": [{"name": "Home", "controls": []}]}


def free_port():
    """Returns a port that nothing listens on. The system takes none of these for a client's side."""
    while True:
        port = CHANCE.randrange(20_000, 30_000)
        with socket.socket() as door:
            try:
                door.bind(("127.0.0.1", port))
                return port
            except OSError:
                continue


def ask(port, method, path, body=None):
    link = http.client.HTTPConnection("127.0.0.1", port, timeout=30)
    link.request(method, path, body)
    reply = link.getresponse()
    text = reply.read()
    link.close()
    return reply.status, json.loads(text)


def start(folder):
    port = free_port()
    program = subprocess.Popen([PROGRAM, "serve", f"{folder}/app.json", f"{folder}/rows.db", str(port)])
    for _ in range(3_000):
        try:
            status, _ = ask(port, "PUT", "/s/a")
            return program, port
        except (OSError, http.client.HTTPException):
            if program.poll() is not None:
                sys.exit(f"it ended with {program.returncode}")
            time.sleep(0.01)
    sys.exit("it doesn't listen")


def names(port):
    found, after = [], 0
    while True:
        _, page = ask(port, "GET", f"/rows/Stock/{after}")
        found += [row["Name"] for row in page["rows"]]
        if not page["more"]:
            return found
        after = page["rows"][-1]["ID"]


def post(port, seq, batch, refused):
    """Sends five rows, of which the last one is without its name where the request is to be refused."""
    rows = [{"Name": f"{batch}-{place}", "Qty": batch % 100} for place in range(5)]
    if refused:
        rows[-1] = {"Qty": 1}
    changes = [{"op": "add", "table": "Stock", "row": row} for row in rows]
    status, _ = ask(port, "POST", "/desk/d/rows", json.dumps({"seq": seq, "changes": changes}))
    if status != (422 if refused else 200):
        sys.exit(f"batch {batch} was answered {status}")


def all_of(batches):
    return {f"{batch}-{place}" for batch in batches for place in range(5)}


def stream(port, program, kept, batch):
    """Posts until the server is killed, and returns the batch that was cut off and the next one."""
    seq = 1
    threading.Timer(CHANCE.uniform(0.0, 0.4), program.kill).start()
    while True:
        refused = batch % 3 == 2
        try:
            post(port, seq, batch, refused)
        except (OSError, http.client.HTTPException, ValueError):
            return None if refused else batch, batch + 1
        if not refused:
            kept.append(batch)
            seq += 1
        batch += 1


def main():
    with tempfile.TemporaryDirectory() as folder:
        with open(f"{folder}/app.json", "w") as file:
            json.dump(APP, file)
        kept, batch, whole = [], 0, 0
        for _ in range(TIMES):
            program, port = start(folder)
            cut, batch = stream(port, program, kept, batch)
            program.wait()
            program, port = start(folder)
            try:
                found = names(port)
            except OSError as error:
                sys.exit(f"{error}, and the server ended with {program.poll()}")
            program.kill()
            program.wait()
            if cut is not None and set(found) == all_of(kept + [cut]):
                kept.append(cut)
                whole += 1
            if len(found) != len(set(found)) or set(found) != all_of(kept):
                sys.exit(f"batch {cut}: lacking {all_of(kept) - set(found)}, too many {set(found) - all_of(kept)}")
        lines = sqlite3.connect(f"{folder}/rows.db").execute("SELECT count(*), max(id) FROM lines").fetchone()
        print(f"killed {TIMES} times: {len(kept)} requests kept of {batch}, {whole} of them cut off; lines by sqlite3: {lines[0]}, last number {lines[1]}")


main()
