#!/usr/bin/env python3
"""Times the sample load, and requests over loopback beside Python's http.server.

    bench/gen.py [PFX]

PFX is the built program, ./pfx where none is given. `gen N` answers the same 2,301 requests for each N, which only shifts the
quantities of its rows; so both numbers should take one time, which is about half a minute, since each event and each view adds
up 20,000 rows anew. Its summary is compared with what the requests come to. Then requests are sent over loopback, as
bench/serve.py does it.
"""
import subprocess
import sys
import time

import serve

NUMBERS = (1_000, 10_000)
REQUESTS = 2_301
RUNS = 2


def summary(number):
    """What the load comes to: each of 2,000 events takes one piece off 990,000, and none of them from row 1."""
    lines = [("rows", 20_000), ("sessions", 40), ("requests", REQUESTS), ("refused", 0), ("total", 988_000), ("first", (7 + number) % 100)]
    return "".join(f"{name} {count}\n" for name, count in lines)


def seconds(number):
    """The shortest of the runs, each of which tells the same."""
    times = []
    for _ in range(RUNS):
        start = time.monotonic()
        ended = subprocess.run([serve.PROGRAM, "gen", str(number)], capture_output=True, text=True)
        times.append(time.monotonic() - start)
        if ended.returncode != 0 or ended.stdout != summary(number):
            sys.exit(f"gen {number}: status {ended.returncode}\n{ended.stdout}")
    return min(times)


def main():
    times = [seconds(number) for number in NUMBERS]
    for number, took in zip(NUMBERS, times):
        print(f"gen {number}: {took:.2f} s, {REQUESTS / took:.0f} requests a second")
    print(f"{NUMBERS[1]} takes {times[1] / times[0]:.2f} times as long as {NUMBERS[0]}")
    serve.main()


main()
