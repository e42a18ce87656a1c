#!/usr/bin/env python3
"""Times requests over loopback, each on a connection of its own, beside Python's http.server.

    bench/serve.py [PFX]

PFX is the built program, ./pfx where none is given. Pages of a hundred rows are read, and rows are posted, each committed
to the database's file before its reply. Python's server answers the same number of requests with as many bytes.
"""
import http.client
import http.server
import json
import os
import socket
import subprocess
import sys
import tempfile
import threading
import time

TOP = os.path.dirname(os.path.dirname(os.path.abspath(__file__)))
PROGRAM = sys.argv[1] if len(sys.argv) > 1 else f"{TOP}/pfx"
COLUMNS = [{"name": "Name", "type": "Text", "required": True, "unique": True}, {"name": "Qty", "type": "Number", "indexed": True}]
APP = {"format": "pfx-1", "tables": [{"name": "Stock", "columns": COLUMNS}], "formulas": "", "screens": [{"name": "Home", "controls": []}]}
LOOKS, POSTS = 1_000, 300


def ask(port, method, path, body=None):
    link = http.client.HTTPConnection("127.0.0.1", port)
    link.request(method, path, body)
    reply = link.getresponse()
    text = reply.read()
    link.close()
    if reply.status != 200:
        sys.exit(f"{method} {path}: {reply.status} {text[:200]}")
    return text


def post(port, seq, rows):
    changes = [{"op": "add", "table": "Stock", "row": {"Name": f"Item {it}", "Qty": it % 100}} for it in rows]
    return ask(port, "POST", "/desk/d/rows", json.dumps({"seq": seq, "changes": changes}))


def rate(count, work):
    start = time.monotonic()
    for place in range(count):
        work(place)
    return count / (time.monotonic() - start)


def free_port():
    with socket.socket() as door:
        door.bind(("127.0.0.1", 0))
        return door.getsockname()[1]


def listen(port):
    """Waits until somebody listens on the port."""
    for _ in range(1_000):
        try:
            return socket.create_connection(("127.0.0.1", port)).close()
        except OSError:
            time.sleep(0.01)
    sys.exit("it doesn't listen")


def serve(folder):
    """Starts the program over a new database, and returns it and its port once it listens."""
    with open(f"{folder}/app.json", "w") as file:
        json.dump(APP, file)
    port = free_port()
    program = subprocess.Popen([PROGRAM, "serve", f"{folder}/app.json", f"{folder}/rows.db", str(port)])
    listen(port)
    return program, port


class Plain(http.server.BaseHTTPRequestHandler):
    page = b""

    def do_GET(self):
        self.send_response(200)
        self.send_header("Content-Length", str(len(self.page)))
        self.end_headers()
        self.wfile.write(self.page)

    def log_message(self, *words):
        pass


def main():
    with tempfile.TemporaryDirectory() as folder:
        program, port = serve(folder)
        try:
            post(port, 1, range(100))
            Plain.page = ask(port, "GET", "/rows/Stock/0")
            looks = rate(LOOKS, lambda _: ask(port, "GET", "/rows/Stock/0"))
            posts = rate(POSTS, lambda place: post(port, place + 2, [100 + place]))
        finally:
            program.kill()
            program.wait()
    server = http.server.HTTPServer(("127.0.0.1", 0), Plain)
    threading.Thread(target=server.serve_forever, daemon=True).start()
    plain = rate(LOOKS, lambda _: ask(server.server_port, "GET", "/"))
    server.shutdown()
    print(f"pages of {len(Plain.page)} bytes: {looks:.0f} a second, http.server {plain:.0f}; rows posted: {posts:.0f} a second")


if __name__ == "__main__":
    main()
