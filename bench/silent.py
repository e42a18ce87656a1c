#!/usr/bin/env python3
"""Tests how long connections that stay silent hold up the others.

    bench/silent.py [PFX]

PFX is the built program, ./pfx where none is given. Behind one and behind two silent connections a request is put, and must
be answered once each of them had the time that docs/PROTOCOL.md gives it; so must one that was begun and not ended.
"""
import socket
import sys
import tempfile
import time

from serve import ask, serve

FIRST = 1  # seconds that a client has for the first byte of its request
WHOLE = 10  # and for the whole of it
SPARE = 2  # what an answer may take beside, where other work runs


def held_up(port, *begun):
    """Returns how long a request waits behind connections that sent this and nothing more."""
    links = []
    for text in begun:
        link = socket.create_connection(("127.0.0.1", port))
        link.sendall(text)
        links.append(link)
    start = time.monotonic()
    ask(port, "GET", "/plan")
    took = time.monotonic() - start
    for link in links:
        link.close()
    return took


def main():
    with tempfile.TemporaryDirectory() as folder:
        program, port = serve(folder)
        try:
            for words, begun, most in (
                ("one silent", [b""], FIRST),
                ("two silent", [b"", b""], 2 * FIRST),
                ("one begun", [b"GET /plan HT"], WHOLE),
            ):
                took = held_up(port, *begun)
                print(f"behind {words}: {took:.1f} s")
                if took > most + SPARE:
                    sys.exit("that is longer than the page says")
        finally:
            program.kill()
            program.wait()


if __name__ == "__main__":
    main()
