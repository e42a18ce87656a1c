#!/usr/bin/env python3
"""Times views of screens with 500 controls.

    bench/screens.py [PFX]

PFX is the built program, ./pfx where none is given. For each app it prints how many views it answers in a second of processor
time, and the bytes of one: the median of 7 pairs of runs, of which one asks for 1 view and the other for 51. Each view is made
afresh."""
import json
import os
import resource
import statistics
import subprocess
import sys
import tempfile

TOP = os.path.dirname(os.path.dirname(os.path.abspath(__file__)))
PROGRAM = sys.argv[1] if len(sys.argv) > 1 else f"{TOP}/pfx"
CONTROLS = 500
PAIRS = 7
VIEWS = 50


def control(name, kind, inside=None, **properties):
    """Returns a control of an app file."""
    place = {"in": inside} if inside else {}
    return {"name": name, "kind": kind, **place, "properties": properties}


def labels():
    """Labels, each with a formula of its own."""
    return [control(f"L{it}", "Label", Text=f'"Number " & {it} * 2') for it in range(CONTROLS)]


def every_kind():
    """Sliders, boxes and pickers, and labels that read them, of which a third is hidden."""
    tens = [
        lambda n: control(f"S{n}", "Slider", Min="1", Max="20", Default="5"),
        lambda n: control(f"B{n}", "TextInput", Default='"you"'),
        lambda n: control(f"C{n}", "Checkbox", Text='"Sure"', Default="true"),
        lambda n: control(f"D{n}", "DatePicker", DefaultDate="Date(2024, 5, 1)"),
        lambda n: control(f"N{n}", "Label", Text=f'"For " & B{n}.Text'),
        lambda n: control(f"V{n}", "Label", Text=f"S{n}.Value * 1.19"),
        lambda n: control(f"H{n}", "Label", Text='"low"', Visible=f"S{n}.Value < 3"),
        lambda n: control(f"I{n}", "Label", Text='"late"', Visible=f"D{n}.SelectedDate > Date(2025, 1, 1)"),
        lambda n: control(f"J{n}", "Label", Text='"no"', Visible=f"!C{n}.Value"),
        lambda n: control(f"K{n}", "Button", Text='"Send"'),
    ]
    return [make(n) for n in range(CONTROLS // len(tens)) for make in tens]


def galleries():
    """Five galleries of a hundred items with 99 controls each, of which the items show two."""
    rows = ", ".join(f'{{ID: {it}, Name: "Item {it}", Qty: {it}}}' for it in range(1, 101))
    controls = []
    for n in range(CONTROLS // 100):
        controls.append(control(f"G{n}", "Gallery", Items="Goods"))
        controls.append(control(f"T{n}", "Label", f"G{n}", Text="ThisItem.Name"))
        controls.append(control(f"Q{n}", "Button", f"G{n}", Text="ThisItem.Qty * 2"))
        controls += [control(f"U{n}_{it}", "Label", f"G{n}", Visible="false") for it in range(97)]
    return controls, f"Goods = [{rows}];"


def app_of(made):
    """Returns the text of an app with these controls on its one screen, and perhaps with named formulas."""
    controls, formulas = made if isinstance(made, tuple) else (made, "")
    return json.dumps({"format": "pfx-1", "formulas": formulas, "screens": [{"name": "Home", "controls": controls}]})


def run(app, views):
    """Returns the seconds of processor time of a run that answers so many views, and the bytes of its replies."""
    stream = "PUT /s/a HTTP/1.1\r\n\r\n" + "GET /s/a/view HTTP/1.1\r\n\r\n" * views
    before = resource.getrusage(resource.RUSAGE_CHILDREN)
    done = subprocess.run([PROGRAM, "replay", app], input=stream.encode(), stdout=subprocess.PIPE, check=True)
    after = resource.getrusage(resource.RUSAGE_CHILDREN)
    return after.ru_utime + after.ru_stime - before.ru_utime - before.ru_stime, len(done.stdout)


def main():
    for title, made in (("labels", labels()), ("every kind", every_kind()), ("galleries", galleries())):
        with tempfile.NamedTemporaryFile("w", suffix=".json") as file:
            file.write(app_of(made))
            file.flush()
            once, size = run(file.name, 1)
            took = statistics.median(run(file.name, 1 + VIEWS)[0] - run(file.name, 1)[0] for _ in range(PAIRS))
            print(f"{title}: {VIEWS / took:.0f} views a second, {size} bytes each; {1000 * once:.0f} ms to load the app and answer one", flush=True)


if __name__ == "__main__":
    main()
