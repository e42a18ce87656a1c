#!/usr/bin/env python3
"""Times `pfx view` over files of many formulas.

    bench/view.py [PFX]

PFX is the built program, ./pfx where none is given. For 500, 1,000 and 2,000 formulas of each kind it prints the median, in
milliseconds of processor time, of 31 runs; and for one formula over a list of 250, 500 and 1,000 numbers."""
import os
import resource
import statistics
import subprocess
import sys
import tempfile

TOP = os.path.dirname(os.path.dirname(os.path.abspath(__file__)))
PROGRAM = sys.argv[1] if len(sys.argv) > 1 else f"{TOP}/pfx"
RUNS = 31
KINDS = {
    "numbers alone": lambda count: [f"A{it} = {it} + 2 * 3;" for it in range(count)],
    "texts, records and conditions": lambda count: [f'A{it} = If({{n: {it}, t: "x"}}.n > 3, Upper("abc") & {it}, "low");' for it in range(count)],
    "each over the one before it": lambda count: ["A0 = 1;"] + [f"A{it} = A{it - 1} + 1;" for it in range(1, count)],
    "each over the one behind it": lambda count: [f"A{it} = A{it + 1} + 1;" for it in range(count - 1)] + [f"A{count - 1} = 1;"],
}


def median(lines):
    """Returns the median of the processor time that a run over these lines takes, in milliseconds."""
    with tempfile.NamedTemporaryFile("w", suffix=".fx") as file:
        file.write("\n".join(lines))
        file.flush()
        took = []
        for _ in range(RUNS):
            before = resource.getrusage(resource.RUSAGE_CHILDREN)
            subprocess.run([PROGRAM, "view", file.name], stdout=subprocess.DEVNULL, check=True)
            after = resource.getrusage(resource.RUSAGE_CHILDREN)
            took.append(after.ru_utime + after.ru_stime - before.ru_utime - before.ru_stime)
    return 1000 * statistics.median(took)


def main():
    for kind, lines in KINDS.items():
        print(f"{kind}: " + ", ".join(f"{median(lines(count)):.0f} ms for {count}" for count in (500, 1_000, 2_000)), flush=True)
    over = lambda count: [f"A = Sum(Filter(Sort([{', '.join(map(str, range(count)))}], Value, SortOrder.Descending), Mod(Value, 2) = 0), Value * 2);"]
    print("a list, filtered, sorted and summed: " + ", ".join(f"{median(over(count)):.0f} ms for {count} numbers" for count in (250, 500, 1_000)))


if __name__ == "__main__":
    main()
