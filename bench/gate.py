#!/usr/bin/env python3
"""Runs the gate and tells where its processor time goes.

    bench/gate.py [COMMAND ..]

The command is `.ci/run` where none is given. Once a second the processes below it are looked at, so what ends within
less isn't seen. At the end stand the minutes of processor time by kind (proofs, tests, edits, programs, the kit's own
work), the dearest crates, those that took the most memory, and the longest chain of proofs, in which each crate waits
for the one before it. The last line can be compared from one state of the repository to another: it has the sums, the
chain, and how quick the machine was, which a fixed loop beside the gate told; the minutes in brackets are those of a
machine whose loop takes 0.38 seconds.
"""
import collections
import functools
import os
import re
import statistics
import subprocess
import sys
import time

TOP = os.path.dirname(os.path.dirname(os.path.abspath(__file__)))
TICKS = os.sysconf("SC_CLK_TCK")
KINDS = ("proofs", "tests", "edits", "programs", "the kit")
# The seconds that the fixed loop takes on the machine whose minutes others are reckoned to, and how often it is run.
QUICK = 0.38
LOOP_EACH = 60


def loop_seconds():
    """Returns the processor seconds that a fixed loop takes now, which tell how quick the machine is."""
    begun, total = time.process_time(), 0
    for number in range(10**7):
        total += number
    return time.process_time() - begun


def processes():
    """Yields the number, the parent, the seconds used and the words of each process."""
    for number in filter(str.isdigit, os.listdir("/proc")):
        try:
            with open(f"/proc/{number}/stat") as file:
                fields = file.read().rpartition(")")[2].split()
            with open(f"/proc/{number}/cmdline", "rb") as file:
                words = file.read().decode(errors="replace").split("\0")
        except OSError:
            continue
        yield int(number), int(fields[1]), (int(fields[11]) + int(fields[12])) / TICKS, words


def place_of(number):
    try:
        return os.readlink(f"/proc/{number}/cwd")
    except OSError:
        return ""


def kind_of(number, words):
    """Returns what a process works for: its kind, and its crate where it has one."""
    program = os.path.basename(words[0])
    if program == "rattle":
        crate = words[words.index("--crate-name") + 1] if "--crate-name" in words else ""
        if "/rt-edit-" in place_of(number):
            return "edits", crate
        return ("tests" if "--test" in words else "proofs"), crate
    name = re.sub(r"(_tests)?(\.by-rattle)?$", "", program)
    return ("programs", name) if name in libraries() else ("the kit", "")


def memory_of(number):
    """Returns the most memory that a process has held, in GB."""
    try:
        with open(f"/proc/{number}/status") as file:
            found = re.search(r"VmHWM:\s+(\d+)", file.read())
    except OSError:
        return 0
    return int(found[1]) / 1e6 if found else 0


def sample(root, seen, most):
    """Notes the seconds of each process below the root, and the most memory of each crate's."""
    found = {number: (parent, seconds, words) for number, parent, seconds, words in processes()}
    below = {root}
    while True:
        more = {number for number, (parent, _, _) in found.items() if parent in below} - below
        if not more:
            break
        below |= more
    for number in below & found.keys():
        _, seconds, words = found[number]
        # (a shell becomes the program that it runs)
        kind, crate = seen[number][:2] if number in seen and seen[number][1] else kind_of(number, words)
        seen[number] = kind, crate, seconds
        if crate:
            most[crate] = max(most.get(crate, 0), memory_of(number))


@functools.cache
def libraries():
    """Returns the libraries that each crate of crates.txt names, lowest first."""
    lines = {}
    with open(f"{TOP}/crates.txt") as file:
        for line in file:
            name, colon, rest = line.partition("#")[0].partition(":")
            if colon:
                lines[name.split()[0]] = rest.split()
    return {name: [it for it in rest if it in lines] for name, rest in lines.items()}


def longest_chain(seconds):
    """Returns the chain of crates, each on the one before, whose proofs take the most seconds together."""
    below, best = libraries(), {}

    def chain(name):
        if name not in best:
            lower = max((chain(it) for it in below[name]), key=lambda it: it[0], default=(0, []))
            best[name] = lower[0] + seconds.get(name, 0), [*lower[1], name]
        return best[name]

    return max(map(chain, below), key=lambda it: it[0])


def main(command):
    begun, seen, most, loops = time.time(), {}, {}, []
    gate = subprocess.Popen(command, cwd=TOP)
    while gate.poll() is None:
        sample(gate.pid, seen, most)
        if time.time() > begun + LOOP_EACH * len(loops):
            loops.append(loop_seconds())
        time.sleep(1)
    kinds, crates = collections.Counter(), collections.defaultdict(collections.Counter)
    for kind, crate, seconds in seen.values():
        kinds[kind] += seconds
        crates[crate][kind] += seconds
    crates.pop("", None)
    wall = (time.time() - begun) / 60
    print(f"\n{wall:.1f} minutes on {len(os.sched_getaffinity(0))} processors, status {gate.returncode}")
    for kind in KINDS:
        print(f"{kinds[kind] / 60:8.1f} minutes of processor time: {kind}")
    for name, its in sorted(crates.items(), key=lambda it: -sum(it[1].values()))[:15]:
        print(f"{sum(its.values()) / 60:8.1f} {name}: " + ", ".join(f"{kind} {its[kind] / 60:.1f}" for kind in KINDS if its[kind]))
    total, chain = longest_chain({name: its["proofs"] for name, its in crates.items()})
    print(f"{total / 60:8.1f} the longest chain of proofs: {' '.join(chain)}")
    print("most memory: " + ", ".join(f"{name} {most[name]:.1f} GB" for name in sorted(most, key=most.get)[: -6 : -1]))
    loop = statistics.median(loops)
    whole = sum(kinds.values())
    sums = {"whole": whole, **{kind: kinds[kind] for kind in ("proofs", "edits", "the kit")}, "chain": total}
    said = ", ".join(f"{name} {seconds / 60:.0f} ({seconds / 60 * QUICK / loop:.0f})" for name, seconds in sums.items())
    print(f"gate: processor minutes {said}; wall {wall:.0f}; loop {loop:.2f} s")
    return gate.returncode


if __name__ == "__main__":
    sys.exit(main(sys.argv[1:] or [f"{TOP}/.ci/run"]))
