#!/usr/bin/env python3
"""Refuses one allocation of a replay at a time, and tells what the replies were.

    bench/memory.py [PFX [EACH]]

PFX is the built program, out/pfx where none is given; each EACH-th allocation is refused, every one where none is said. A session is opened, a desk's changes of rows are sent, then events and
inputs of the session whose formulas act, an edit and replacements of the app, each request twice; after each the rows are shown,
and to the session its view and the named formulas. The run is made once for each such allocation, which alone gets no memory (by a library that stands
before the C library's, so a C compiler is needed). The replies must be those of a model in which a request that wants for memory
changes nothing: no change of rows, variables, inputs, formulas or apps without its reply, and the same request again acts once. Where
memory is refused before a request is whole, the conversation ends behind that reply; where the app isn't loaded yet, there is
none.
"""
import itertools
import json
import os
import subprocess
import sys
import tempfile

from behaviour_model import Office, body_of

TOP = os.path.dirname(os.path.dirname(os.path.abspath(__file__)))
PROGRAM = sys.argv[1] if len(sys.argv) > 1 else f"{TOP}/out/pfx"
EACH = int(sys.argv[2]) if len(sys.argv) > 2 else 1
COLUMNS = [{"name": "Name", "type": "Text", "required": True, "unique": True}, {"name": "Qty", "type": "Number", "indexed": True}]
FORMULAS = "Low = CountRows(Filter(Stock, Qty < 3)); One = First(Stock).Name; All = Sort(Stock, Qty); Bad = Filter(Stock, Qty = 1/0); Held = held;"
ADD_ROW = 'Set(n, n + 1); Patch(Stock, Defaults(Stock), {Name: "Item " & n, Qty: n})'
MANY = ('Collect(held, {A: n}, {A: n + 1}); UpdateContext({x: n, y: "y"}); ForAll(Stock, Patch(Stock, ThisRecord, {Qty: Qty + 1})); UpdateIf(Stock, Qty > 1, {Name: Name & "!"}); '
        'RemoveIf(held, A = 9); Patch(held, First(held), {A: 7}); Remove(held, Last(held)); IfError(Patch(Stock, {ID: 99}, {Qty: 1}), Notify(FirstError.Kind)); Notify("done " & n); Navigate(Other)')
CONTROLS = [
    {"name": "Sign", "kind": "Label", "properties": {"Text": 'Low & " of " & CountRows(Stock) & x & y'}},
    {"name": "Add", "kind": "Button", "properties": {"OnSelect": ADD_ROW}},
    {"name": "Many", "kind": "Button", "properties": {"OnSelect": MANY}},
    {"name": "Size", "kind": "Slider", "properties": {"OnChange": "Set(n, Size.Value); Reset(Size)"}},
    {"name": "List", "kind": "Gallery", "properties": {"Items": "Filter(Stock, Qty > 1)", "OnSelect": "ClearCollect(held, {A: ThisItem.Qty})"}},
    {"name": "Line", "kind": "Label", "in": "List", "properties": {"Text": "ThisItem.Name & CountRows(Stock)"}},
    {"name": "Out", "kind": "Button", "in": "List", "properties": {"OnSelect": "Remove(Stock, ThisItem)"}},
]
OTHER = {"name": "Other", "onVisible": "Set(n, n + 10)", "controls": [{"name": "Back", "kind": "Button", "properties": {"OnSelect": "Navigate(Home)"}}]}
APP = {"format": "pfx-1", "tables": [{"name": "Stock", "columns": COLUMNS}], "formulas": FORMULAS, "onStart": "Set(n, 0)",
       "screens": [{"name": "Home", "onVisible": 'Notify("home"); Set(n, n + 1)', "controls": CONTROLS}, OTHER]}
ADD = {"op": "add", "table": "Stock", "row": {"Name": "Nut", "Qty": {"n": "2.5"}}}
CHANGES = [(1, [ADD]), (3, [ADD]), (2, [{"op": "remove", "table": "Stock", "id": 9}]), (2, [ADD]), (2, [{"op": "remove", "table": "Stock", "id": 1}, ADD])]
OPEN, VIEW, NAMED, PAGE = (("PUT", "/s/a", None), ("GET", "/s/a/view", None), ("GET", "/s/a/named", None), ("GET", "/rows/Stock/0", None))
SHOWN = [PAGE, ("GET", "/rows/Parts/0", None), VIEW, NAMED]
# The app under other names, and one to which its rows can't move.
MOVES = [{"table": "Stock", "to": "Parts"}, {"table": "Stock", "column": "Qty", "to": "Amount"}]
GROWN = json.loads(json.dumps(APP).replace("Stock", "Parts").replace("Qty", "Amount"))
STRICT = {**GROWN, "tables": [{"name": "Parts", "columns": [*GROWN["tables"][0]["columns"], {"name": "Shelf", "type": "Text", "required": True}]}]}


def compact(value):
    """Returns a value as JSON without spaces."""
    return json.dumps(value, separators=(",", ":"), ensure_ascii=False)


def rows_of(seq, changes):
    return "POST", "/desk/d/rows", compact({"seq": seq, "changes": changes})


def event(seq, control, item=None):
    return "POST", "/s/a/event", compact({"seq": seq, "control": control, "event": "OnSelect", **({"item": {"at": item}} if item else {})})


def given(seq, control, value):
    return "POST", "/s/a/input", compact({"seq": seq, "control": control, "value": value})


def edit(seq, cell, text):
    return "POST", "/desk/e/edit", compact({"seq": seq, "cell": cell, "text": text})


def replacement(seq, app):
    return "POST", "/desk/e/app", compact({"seq": seq, "app": app, "moves": MOVES})


ACTS = [event(1, "Add"), event(2, "Add"), event(3, "Many"), event(4, "Back"), given(5, "Size", 4), event(6, "List", 1), event(7, "Out", 2), event(8, "Add"), edit(1, "Add.OnSelect", 'Set(held_, [n]); Set(n, n - 1)'), event(9, "Add"), replacement(2, STRICT), replacement(2, GROWN), event(10, "Many")]
REQUESTS = [OPEN, *SHOWN, *(it for change in CHANGES for it in (rows_of(*change), *SHOWN, rows_of(*change), *SHOWN)), *(it for act in ACTS for it in (act, *SHOWN, act, *SHOWN)), OPEN]
WANTS = b'{"refused":{"code":26,"detail":null,"name":"WantOfMemory"}}'

# `memory` refuses the call of this number, counted from 1, and leaves a file that says so.
REFUSER = r"""
#include <fcntl.h>
#include <stdlib.h>
#include <unistd.h>
extern void *__libc_malloc(size_t), *__libc_calloc(size_t, size_t), *__libc_realloc(void *, size_t), *__libc_memalign(size_t, size_t);
static long left;
__attribute__((constructor)) static void begin(void) { left = atol(getenv("REFUSED_CALL")); }
static int refuses(void) {
    if (left == 0 || --left != 0) return 0;
    close(open(getenv("REFUSED_MARK"), O_CREAT | O_WRONLY, 0600));
    return 1;
}
void *malloc(size_t n) { return refuses() ? 0 : __libc_malloc(n); }
void *calloc(size_t n, size_t m) { return refuses() ? 0 : __libc_calloc(n, m); }
void *realloc(void *p, size_t n) { return refuses() ? 0 : __libc_realloc(p, n); }
void *aligned_alloc(size_t a, size_t n) { return refuses() ? 0 : __libc_memalign(a, n); }
"""


def sent(request):
    """Returns the bytes of a request."""
    method, path, body = request
    if body is None:
        return f"{method} {path} HTTP/1.1\r\n\r\n".encode()
    return f"{method} {path} HTTP/1.1\r\nContent-Length: {len(body.encode())}\r\n\r\n{body}".encode()


def is_right(replies):
    """Whether the replies are those of the model, where what wants for memory changes nothing."""
    model = Office(APP)
    for request, reply in zip(REQUESTS, replies):
        if reply != WANTS and reply != body_of(model.answer(*request)[1]).encode():
            return False
    return len(replies) == len(REQUESTS) or not replies or replies[-1] == WANTS


def replay(app, refuser, mark, call):
    """Returns the status and the replies of a run in which a call gets no memory, and whether there was such a call."""
    environment = {**os.environ, "LD_PRELOAD": refuser, "REFUSED_CALL": str(call), "REFUSED_MARK": mark}
    ran = subprocess.run([PROGRAM, "replay", app], input=b"".join(map(sent, REQUESTS)), env=environment, capture_output=True)
    replies = [it.partition(b"\r\n\r\n")[2] for it in ran.stdout.split(b"HTTP/1.1 ")[1:]]
    was = os.path.exists(mark)
    if was:
        os.unlink(mark)
    return ran.returncode, replies, was


def main():
    with tempfile.TemporaryDirectory() as folder:
        app, refuser, mark = (f"{folder}/{it}" for it in ("app.json", "refuser.so", "mark"))
        with open(app, "w") as file:
            json.dump(APP, file)
        subprocess.run(["cc", "-shared", "-fPIC", "-O1", "-o", refuser, "-x", "c", "-"], input=REFUSER.encode(), check=True)
        runs, ends = 0, {}
        for call in itertools.count(1, EACH):
            status, replies, was = replay(app, refuser, mark, call)
            if not is_right(replies) or (not was and (status or WANTS in replies)):
                sys.exit(f"call {call}: status {status}, {replies}")
            if not was:
                break
            runs += 1
            end = (status, len(replies), replies.count(WANTS))
            ends[end] = ends.get(end, 0) + 1
    print(f"{runs} allocations, each refused in a run of its own, over {len(REQUESTS)} requests; all replies were right")
    for (status, replies, wants), count in sorted(ends.items()):
        print(f"  {count:5} runs: status {status}, {replies} replies, {wants} for want of memory")


if __name__ == "__main__":
    main()
