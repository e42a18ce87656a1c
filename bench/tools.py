#!/usr/bin/env python3
"""Tests the makers' tools of examples/tools and the schema of app files.

    bench/tools.py [PFX]

PFX is the built program, ./pfx where none is given.
"""
import copy
import json
import os
import re
import subprocess
import sys
import tempfile
import urllib.request

from serve import free_port, listen

TOP = os.path.dirname(os.path.dirname(os.path.abspath(__file__)))
PROGRAM = os.path.abspath(sys.argv[1]) if len(sys.argv) > 1 else f"{TOP}/pfx"
APPS = ["order", "shop", "stock", "parts", "thirds", "booking"]


def tool(name, *words):
    made = subprocess.run([f"{TOP}/examples/tools/{name}.py", *words], capture_output=True, text=True, check=False)
    assert not made.stderr, made.stderr
    return made.stdout


def write(folder, name, text):
    with open(f"{folder}/{name}", "w", encoding="utf-8") as file:
        file.write(text if isinstance(text, str) else json.dumps(text))
    return f"{folder}/{name}"


def screen(*controls):
    return [{"name": "Home", "controls": list(controls)}]


def test_lines(folder):
    label = {"name": "A.b", "kind": "Label", "properties": {"Text": '= "é" &\n\t  Lov'}}
    app = {"format": "pfx-1", "formulas": "/* one; */ Low = 1;\nHigh = Low & Hig;", "screens": screen(label)}
    told = tool("lines", write(folder, "app.json", app), PROGRAM)
    assert told == (
        "High, line 2, column 14: E4 UnknownName: Hig\n    High = Low & Hig;\n                 ^\n"
        "'A.b'.Text, line 2, column 4: E4 UnknownName: Lov\n    \t  Lov\n    \t  ^\n"
    ), told
    told = tool("lines", write(folder, "new.fx", "A = 1;\nB = * A;"), PROGRAM)
    assert told == "App.Formulas, line 2, column 5: E2 Syntax: unexpected *\n    B = * A;\n        ^\n", told
    told = tool("lines", write(folder, "bad.json", {"format": "pfx-1", "screens": screen({"name": "A", "kind": "Lable"})}), PROGRAM)
    assert told == "App: E14 BadShape at 0: screens/0/controls/0/kind\n", told


def test_first_rows(folder):
    columns = [{"name": "Name", "type": "Text"}, {"name": "Qty", "type": "Number"}]
    app = {
        "format": "pfx-1",
        "tables": [{"name": "Stock", "columns": columns}],
        "formulas": "Few = ForAll(Stock, Qty * 2); Some = CountRows(Few); All = CountRows(Stock);",
        "screens": screen(
            {"name": "Shown", "kind": "Label", "properties": {"Text": "Some"}},
            {"name": "Sure", "kind": "Label", "properties": {"Text": "All"}},
            {"name": "List", "kind": "Gallery", "properties": {"Items": "Stock"}},
            {"name": "Taken", "kind": "Label", "properties": {"Text": "List.Selected.Name"}},
        ),
    }
    told = tool("first_rows", write(folder, "app.json", app), PROGRAM)
    assert told == (
        "Few: first rows of Stock\n"
        "Some: first rows of Stock <- Few\n"
        "Shown.Text: first rows of Stock <- Some <- Few\n"
        "List.Items: first rows of Stock\n"
        "Taken.Text: first rows of Stock <- List.Items\n"
    ), told


def test_rows(folder):
    columns = [{"name": "Name", "type": "Text"}, {"name": "Qty", "type": "Number"}, {"name": "Sold", "type": "Boolean"}, {"name": "Since", "type": "Date"}]
    app = {"format": "pfx-1", "tables": [{"name": "Other", "columns": []}, {"name": "Stock", "columns": columns}], "screens": screen()}
    port = free_port()
    served = subprocess.Popen([PROGRAM, "serve", write(folder, "app.json", app), f"{folder}/rows.db", str(port)])
    try:
        listen(port)
        rows = [{"Name": 'Nuß, "x"', "Qty": {"n": "-2.5"}, "Sold": True, "Since": {"d": "2024-02-29"}}, {}]
        rows.append({"Name": "", "Qty": 922337203685477, "Sold": False, "Since": {"d": "1900-01-01"}})
        changes = [{"op": "add", "table": "Stock", "row": it} for it in rows]
        body = json.dumps({"seq": 1, "changes": changes}).encode()
        urllib.request.urlopen(f"http://127.0.0.1:{port}/desk/d/rows", body).close()
    finally:
        served.kill()
        served.wait()
    assert tool("rows", f"{folder}/rows.db") == "Other\nStock\n"
    told = tool("rows", f"{folder}/rows.db", "Stock")
    assert told == (
        'ID,Name,Qty,Sold,Since\n1,"Nuß, ""x""",-2.5,true,2024-02-29\n2,,,,\n3,,922337203685477,false,1900-01-01\n'
    ), told


# ---- The schema

TYPES = {"object": dict, "array": list, "string": str, "boolean": bool, "integer": int}


def breaks(schema, it, top, path=""):
    """Yields the places where a value isn't as a schema wants it, by the words that the schema of app files uses."""
    if schema is False:
        yield path
        return
    if "$ref" in schema:
        yield from breaks(top["$defs"][schema["$ref"].rpartition("/")[2]], it, top, path)
    limits = {"minLength": 1, "maxLength": -1, "minItems": 1, "maxItems": -1}
    fits = (
        "type" not in schema or isinstance(it, TYPES[schema["type"]]) and (schema["type"] != "integer" or it is not True),
        "const" not in schema or it == schema["const"],
        it in schema.get("enum", [it]),
        "not" not in schema or list(breaks(schema["not"], it, top)) != [],
        all(way * len(it) >= way * schema[word] for word, way in limits.items() if word in schema and isinstance(it, (str, list))),
        not isinstance(it, int) or schema.get("minimum", it) <= it <= schema.get("maximum", it),
    )
    if not all(fits):
        yield path
        return
    for branch in schema.get("allOf", []):
        if not list(breaks(branch["if"], it, top)):
            yield from breaks(branch["then"], it, top, path)
    if isinstance(it, dict):
        known = schema.get("properties", {})
        yield from (f"{path}/{key}" for key in schema.get("required", []) if key not in it)
        for key, part in it.items():
            if key in known:
                yield from breaks(known[key], part, top, f"{path}/{key}")
            elif not schema.get("additionalProperties", True):
                yield f"{path}/{key}"
    if isinstance(it, list) and "items" in schema:
        for place, part in enumerate(it):
            yield from breaks(schema["items"], part, top, f"{path}/{place}")


def misspelt(app):
    """Yields apps with one thing wrong, each with the place of it."""
    control = "/screens/0/controls/0"
    wrong = [
        (lambda it: it.update(fromat="pfx-1"), "/fromat"),
        (lambda it: it.pop("format"), "/format"),
        (lambda it: it.update(format="pfx-2"), "/format"),
        (lambda it: it.update(rowLimit=2001), "/rowLimit"),
        (lambda it: it.update(rowLimit="500"), "/rowLimit"),
        (lambda it: it.update(screens=[]), "/screens"),
        (lambda it: it["tables"][0]["columns"][0].update(typ="Text"), "/tables/0/columns/0/typ"),
        (lambda it: it["tables"][0]["columns"][0].update(type="text"), "/tables/0/columns/0/type"),
        (lambda it: it["tables"][0]["columns"][0].update(name="x" * 65), "/tables/0/columns/0/name"),
        (lambda it: it["screens"][0]["controls"][0].update(kind="Lable"), f"{control}/kind"),
        (lambda it: it["screens"][0]["controls"][0].update(properties={"Txt": "1"}), f"{control}/properties/Txt"),
        (lambda it: it["screens"][0]["controls"][0].update(properties={"OnSelect": "1"}), f"{control}/properties/OnSelect"),
        (lambda it: it["screens"][0]["controls"][0].update(properties={"Default": 1}), f"{control}/properties/Default"),
        (lambda it: it["screens"][0]["controls"][0].update({"in": "List"}), f"{control}/in"),
        (lambda it: it["screens"][0]["controls"][0].update(name=""), f"{control}/name"),
    ]
    for change, place in wrong:
        other = copy.deepcopy(app)
        change(other)
        yield other, place


def test_schema(folder):
    with open(f"{TOP}/examples/app.schema.json", encoding="utf-8") as file:
        schema = json.load(file)
    for name in APPS:
        with open(f"{TOP}/examples/{name}.json", encoding="utf-8") as file:
            app = json.load(file)
        assert not list(breaks(schema, app, schema)), name
    with open(f"{TOP}/examples/shop.json", encoding="utf-8") as file:
        shop = json.load(file)
    for app, place in misspelt(shop):
        assert list(breaks(schema, app, schema)) == [place], (place, list(breaks(schema, app, schema)))
        # (what the schema marks pfx refuses at the same place)
        told = subprocess.run([PROGRAM, "check", write(folder, "app.json", app)], capture_output=True, text=True, check=False).stdout
        assert re.search(rf"E14 BadShape at 0: {place[1:]}$|E13 LimitPassed at 0: (name|rowLimit)", told, re.M), (place, told)


def main():
    for name, test in list(globals().items()):
        if name.startswith("test_"):
            with tempfile.TemporaryDirectory() as folder:
                test(folder)
            print(f"passed: {name[5:].replace('_', ' ')}")


if __name__ == "__main__":
    main()
