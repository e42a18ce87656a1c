#!/usr/bin/env python3
"""Plays random small apps whose formulas act against a plain model, and compares each reply byte for byte.

    bench/behaviour.py [PFX] [FIRST LAST]

PFX is the built program, ./pfx where none is given. Each seed from FIRST up to but without LAST, 0 and 500 where none are given,
makes an app of two screens with buttons, inputs and a gallery, whose formulas set variables, fill collections and change the rows
of two tables, and sixty requests of two sessions and a desk: events, inputs, views, pages of rows, changes of rows and edits, in
turn and out of turn. The first replies that differ are printed, and the status is then 1."""
import json
import random
import re
import subprocess
import sys
import tempfile

from behaviour_model import Office, body_of

STOCK = {"name": "Stock", "columns": [{"name": "Name", "type": "Text", "required": True, "unique": True}, {"name": "Qty", "type": "Number", "indexed": True}]}
LOG = {"name": "Log", "columns": [{"name": "Word", "type": "Text"}, {"name": "Done", "type": "Boolean"}]}
# What gives each name its type, so that no edit takes one away.
KEEP = 'Set(n, 1); Set(m, 2); Set(w, "w"); Set(b, true); Collect(c, {A: 1, B: "b"}); Collect(s, 5); UpdateContext({x: 1, y: "y"})'


# The most row scopes that may nest, and the functions that make one; a table argument of theirs is counted too, which is safe.
MOST_SCOPES, SCOPED = 3, {"ForAll", "UpdateIf", "RemoveIf", "Filter", "LookUp", "CountIf", "Concat", "Sum", "Max"}


def scopes_in(text):
    """How deep calls of these functions nest in a formula."""
    deepest, calls = 0, []
    for word, mark in re.findall(r'"[^"]*"|(\w*)([()])', text):
        if mark == "(":
            calls.append(word in SCOPED)
            deepest = max(deepest, sum(calls))
        elif mark:
            calls.pop()
    return deepest


class Maker:
    """Random formulas of a screen; `names` are the number fields and `words` the text fields of the row scopes around."""

    def __init__(self, dice, screen, item=False):
        self.dice, self.screen, self.item, self.names, self.words = dice, screen, item, [], []

    def within(self, names, words):
        inner = Maker(self.dice, self.screen, self.item)
        inner.names, inner.words = self.names + names, self.words + words
        return inner

    def number(self, depth=2):
        dice, k = self.dice, self.dice.randint(-2, 6)
        if depth == 0 or dice.random() < 0.45:
            given = [str(k) if k >= 0 else f"(0 - {-k})", "n", "m", "Size.Value", "Half", *self.names * 3] + (["x"] if self.screen == "Home" else []) + (["ThisItem.Qty"] * 3 if self.item else [])
            return dice.choice(given)
        a, b = self.number(depth - 1), self.number(depth - 1)
        return dice.choice([f"({a} + {b})", f"({a} - {b})", f"({a} * {k})", f"({a} / {b})", f"If({self.test(depth - 1)}, {a}, {b})", f"IfError({a}, {b})", "CountRows(Stock)", "Sum(Stock, Qty)",
                            f"CountRows(Filter(Stock, Qty > {k}))", f"LookUp(Stock, Qty > {k}).Qty", "First(Stock).Qty", "First(c).A", "Sum(c, A)", "Sum(s, Value)", f"Len({self.text(0)})", "List.Selected.Qty",
                            f'CountIf(Log, Word = "a", Done)', f"Max(Filter(Stock, Name <> \"a\"), Qty)"])

    def text(self, depth=1):
        dice = self.dice
        if depth == 0 or dice.random() < 0.5:
            return dice.choice(['"a"', '"bc"', '"x1"', '""', "w", "Word.Text", "Left(w, 3)", *self.words * 3] + (["y"] if self.screen == "Home" else []) + (["ThisItem.Name"] * 3 if self.item else []))
        return dice.choice([f'("t" & {self.number(1)})', f"Upper({self.text(0)})", "First(Stock).Name", f"Left({self.text(0)} & {self.text(0)}, 5)", "First(c).B", 'Concat(s, Value, "-")', "Last(Log).Word"])

    def test(self, depth=1):
        return self.dice.choice([f"{self.number(depth)} < {self.number(0)}", f"{self.number(0)} = {self.number(0)}", f"IsBlank({self.text(0)})", "Flag.Value", "b", f"IsError({self.number(depth)})",
                                 f"StartsWith({self.text(0)}, {self.text(0)})", "true", "CountRows(s) > 2"])

    def row(self):
        """A row of the table of stock."""
        k = self.dice.randint(0, 5)
        return self.dice.choice(["First(Stock)", "Last(Stock)", f"First(Filter(Stock, Qty > {k}))", f"{{ID: {k}}}", f"LookUp(Stock, Name = {self.text(0)})", "Defaults(Stock)", f"{{ID: {self.number(1)}}}"]
                                + (["ThisItem"] * 4 if self.item else []))

    def act(self, depth=2):
        """One part that acts."""
        dice, k = self.dice, self.dice.randint(0, 5)
        over, held = self.within(["Qty"], ["Name"]), self.within(["A"], ["B"])
        simple = [
            lambda: f"Set(n, {self.number()})", lambda: f"Set(m, {self.number()})", lambda: f"Set(w, {self.text()})", lambda: f"Set(b, {self.test()})",
            lambda: f"Collect(c, {{A: {self.number(1)}, B: {self.text(0)}}})", lambda: f"Collect(c, {{A: {self.number(1)}}}, {{B: {self.text()}}})", lambda: f"Collect(s, {self.number()}, {self.number(0)})",
            lambda: f"ClearCollect(c, Filter(c, A > {k}))", lambda: f"ClearCollect(c, {{A: {self.number()}}})", lambda: "Clear(c)", lambda: "Clear(s)", lambda: f"ClearCollect(s, {self.number()})",
            lambda: f"Patch(Stock, Defaults(Stock), {{Name: {self.text()}, Qty: {self.number()}}})", lambda: f"Patch(Stock, {self.row()}, {{Qty: {self.number()}}})", lambda: f"Patch(Stock, {self.row()}, {{Name: {self.text()}}}, {{Qty: {self.number(1)}}})",
            lambda: f"Patch(Log, Defaults(Log), {{Word: {self.text()}, Done: {self.test(0)}}})", lambda: f"Patch(c, First(c), {{B: {self.text()}}})", lambda: f"Patch(c, Defaults(c), {{A: {self.number()}}})", lambda: f"Patch(c, {{A: {self.number(0)}}}, {{B: {self.text(0)}}})",
            lambda: f"Remove(Stock, {self.row()})", lambda: f"Remove(Stock, {self.row()}, {self.row()})", lambda: "Remove(c, Last(c))", lambda: f"Remove(s, {{Value: {self.number(0)}}})",
            lambda: f"RemoveIf(Stock, Qty > {over.number(1)})", lambda: f"RemoveIf(Stock, Qty > {k}, {over.test()})", lambda: f"RemoveIf(c, A = {held.number(0)})", lambda: f"RemoveIf(Log, Done)", lambda: f"RemoveIf(s, Value > {k})",
            lambda: f"UpdateIf(Stock, Qty < {k}, {{Qty: {over.number(1)}}})", lambda: f"UpdateIf(Stock, {over.test()}, {{Name: {over.text()}, Qty: Qty + 1}})", lambda: f"UpdateIf(c, {held.test()}, {{A: {held.number(1)}}})", lambda: f"UpdateIf(Log, true, {{Done: !Done}})",
            lambda: f"Notify({self.text()})", lambda: f"Notify({self.text()})", lambda: f"Navigate({dice.choice(['Home', 'Other'])})", lambda: f"Reset({dice.choice(['Size', 'Word', 'Flag'])})",
        ] + ([lambda: f"UpdateContext({{x: {self.number(1)}, y: {self.text(0)}}})", lambda: f"UpdateContext({{y: {self.text()}}})"] if self.screen == "Home" else [])
        if depth == 0 or dice.random() < 0.7:
            return dice.choice(simple)()
        numbered = self.within(["Value"], [])
        return dice.choice([
            lambda: f"If({self.test()}, {self.chain(depth - 1)}, {self.chain(depth - 1)})", lambda: f"If({self.test()}, {self.chain(depth - 1)})", lambda: f"IfError({self.act(depth - 1)}, {self.chain(depth - 1)})",
            lambda: f"IfError({self.act(depth - 1)}, Notify(FirstError.Kind & FirstError.Message))", lambda: f"ForAll([1, 2, {dice.randint(0, 9)}], {numbered.each(depth - 1)})", lambda: f"ForAll(FirstN(Stock, 3), {over.each(depth - 1)})",
            lambda: f"ForAll(Filter(Stock, Qty > {k}), Patch(Stock, ThisRecord, {{Qty: {over.number(1)}}}))", lambda: f"ForAll(c, {held.each(depth - 1)})", lambda: f"With({{Value: {self.number(1)}}}, {numbered.chain(depth - 1)})",
            lambda: f"Set(n, {self.act(0)}; {self.number(1)})", lambda: f"Switch({self.number(0)}, {k}, {self.act(0)}, {k + 1}, {self.act(0)}, {self.act(0)})",
        ])()

    def each(self, depth):
        """The formula of a `ForAll`, which is no table."""
        return self.act(0) if self.dice.random() < 0.5 else f"{self.act(depth)}; {self.number(0)}"

    def formula(self):
        """A chain whose row scopes nest no deeper than an app may have them."""
        while True:
            text = self.chain()
            if scopes_in(text) <= MOST_SCOPES:
                return text

    def chain(self, depth=2):
        parts = [self.act(depth) for _ in range(self.dice.choice([1, 1, 2, 3]))]
        if self.dice.random() < 0.15:
            parts.append(self.dice.choice([self.number(), self.text()]))
        return "; ".join(parts)


class App:
    """A random app, and the formulas that an edit may replace."""

    def __init__(self, dice):
        self.dice, home, other = dice, Maker(dice, "Home"), Maker(dice, "Other")
        item = Maker(dice, "Home", True)
        self.makers = {f"B{at}.OnSelect": home for at in range(4)}
        self.makers.update({"Far.OnSelect": other, "Size.OnChange": home, "Flag.OnCheck": home, "Flag.OnUncheck": home, "Word.OnChange": home, "List.OnSelect": item, "Take.OnSelect": item,
                            "Home.OnVisible": home, "Other.OnVisible": other, "App.OnStart": other})
        text = {cell: maker.formula() if dice.random() < 0.8 else "" for cell, maker in self.makers.items()}
        shown = [("Num", 'n & "," & m & "," & x'), ("Txt", 'w & "," & y & "," & b'), ("Kind", "z"), ("Rows", 'Concat(Stock, ID & Name & Qty, " ")'), ("Held", 'Concat(c, A & B, " ")')]
        controls = [{"name": name, "kind": "Label", "properties": {"Text": formula}} for name, formula in shown]
        controls += [{"name": f"B{at}", "kind": "Button", "properties": {"OnSelect": text[f"B{at}.OnSelect"]}} for at in range(4)]
        controls += [{"name": "Keep", "kind": "Button", "properties": {"OnSelect": KEEP}}, {"name": "Turn", "kind": "Button", "properties": {"OnSelect": "Set(z, 1)"}},
                     {"name": "Size", "kind": "Slider", "properties": {"Max": "9", "Default": str(dice.randint(0, 3)), "OnChange": text["Size.OnChange"]}},
                     {"name": "Flag", "kind": "Checkbox", "properties": {"Default": dice.choice(["true", "false", "Size.Value > 2"]), "OnCheck": text["Flag.OnCheck"], "OnUncheck": text["Flag.OnUncheck"]}},
                     {"name": "Word", "kind": "TextInput", "properties": {"Default": '"ab"', "OnChange": text["Word.OnChange"]}},
                     {"name": "List", "kind": "Gallery", "properties": {"Items": dice.choice(["Stock", "Sort(Stock, Qty, SortOrder.Descending)", "Filter(Stock, Qty > 1)"]), "OnSelect": text["List.OnSelect"]}},
                     {"name": "Line", "kind": "Label", "in": "List", "properties": {"Text": 'ThisItem.Name & "," & n'}},
                     {"name": "Take", "kind": "Button", "in": "List", "properties": {"Visible": dice.choice(["true", "ThisItem.Qty > 1", "n < 5"]), "OnSelect": text["Take.OnSelect"]}}]
        far = [{"name": "Far", "kind": "Button", "properties": {"OnSelect": text["Far.OnSelect"]}}, {"name": "Back", "kind": "Button", "properties": {"OnSelect": "Navigate(Home)"}},
               {"name": "Sum", "kind": "Label", "properties": {"Text": "Sum(Stock, Qty)"}}]
        self.file = {"format": "pfx-1", "rowLimit": dice.choice([2, 3, 500]), "tables": [STOCK, LOG], "formulas": "Half = n / 2; Held_ = c; All = s;", "onStart": text["App.OnStart"],
                     "screens": [{"name": "Home", "onVisible": text["Home.OnVisible"], "controls": controls}, {"name": "Other", "onVisible": text["Other.OnVisible"], "controls": far}]}

    def edit(self):
        """A random edit: a formula that acts, or the one that gives `z` its type."""
        if self.dice.random() < 0.3:
            return "Turn.OnSelect", self.dice.choice(["Set(z, 1)", 'Set(z, "z")', "Set(z, true)", "Set(z, z)"])
        cell = self.dice.choice(list(self.makers))
        return cell, self.makers[cell].formula()


def played(app, dice, count=60):
    """Random requests of two sessions and a desk, most of them in turn, with the replies of the model."""
    office, before, told = Office(app.file), {}, []

    def ask(method, path, body=None):
        told.append(((method, path, body), body_of(office.answer(method, path, body)[1])))

    def following(callers, name):
        return callers[name].last + 1 if name in callers else 1

    ask("PUT", "/s/a")
    ask("PUT", "/s/b")
    ask("POST", "/desk/d/rows", compact({"seq": 1, "changes": [{"op": "add", "table": "Stock", "row": {"Name": f"Item {it}", "Qty": it}} for it in range(1, 5)]}))
    while len(told) < count:
        name, roll = dice.choice("aab"), dice.random()
        if roll < 0.04 or (name not in office.sessions and roll < 0.7):
            ask("DELETE" if roll < 0.015 else "PUT", f"/s/{name}")
        elif roll < 0.34:
            ask("GET", dice.choice([f"/s/{name}/view", f"/s/{name}/view", f"/s/{name}/named", f"/s/{name}/items/List/1", "/rows/Stock/0", "/rows/Log/0"]))
        elif roll < 0.45:
            ask(*(edited(app, following(office.desks, "d")) if roll < 0.41 else changed(dice, following(office.desks, "d"))))
        elif roll < 0.49 and name in before:
            ask(*before[name])
        else:
            before[name] = posted(dice, name, following(office.sessions, name) if dice.random() < 0.95 else dice.randint(1, 4))
            ask(*before[name])
    return told


def compact(value):
    return json.dumps(value, separators=(",", ":"), ensure_ascii=False)


def edited(app, seq):
    cell, text = app.edit()
    return "POST", "/desk/d/edit", compact({"seq": seq, "cell": cell, "text": text})


def changed(dice, seq):
    row = {"Name": dice.choice(["a", "bc", "Nut", ""]), "Qty": dice.choice([0, 3, {"n": "2.5"}, None])}
    change = dice.choice([{"op": "add", "table": "Stock", "row": row}, {"op": "change", "table": "Stock", "id": dice.randint(1, 6), "row": row}, {"op": "remove", "table": "Stock", "id": dice.randint(1, 6)}])
    return "POST", "/desk/d/rows", compact({"seq": seq, "changes": [change]})


def posted(dice, name, seq):
    if dice.random() < 0.25:
        control = dice.choice(["Size", "Flag", "Word", "Size", "B0"])
        value = dice.choice({"Size": [0, 3, 9, 12, {"n": "2.5"}, None], "Flag": [True, False, None, 1], "Word": ["", "hello", "é", None, 3]}.get(control, [1]))
        return "POST", f"/s/{name}/input", compact({"seq": seq, "control": control, "value": value})
    control = dice.choice(["B0", "B1", "B2", "B3", "B0", "B1", "Keep", "Turn", "List", "Take", "Take", "Far", "Back", "Back", "Num", "Nope"])
    body = {"seq": seq, "control": control, "event": "OnSelect"}
    if (control in ("List", "Take")) != (dice.random() < 0.05):
        body["item"] = dice.choice([{"at": dice.randint(1, 4)}, {"at": dice.randint(1, 3), "id": dice.randint(1, 4)}])
    return "POST", f"/s/{name}/event", compact(body)


def bytes_of(method, path, body):
    if body is None:
        return f"{method} {path} HTTP/1.1\r\n\r\n".encode()
    return f"{method} {path} HTTP/1.1\r\nContent-Length: {len(body.encode())}\r\n\r\n{body}".encode()


def differs(program, seed):
    """Plays the app of a seed, and prints the first reply that differs; returns the number of requests, or None."""
    dice = random.Random(seed)
    app = App(dice)
    asked, wanted = zip(*played(app, dice))
    with tempfile.NamedTemporaryFile("w", suffix=".json", encoding="utf-8") as file:
        json.dump(app.file, file, ensure_ascii=False)
        file.flush()
        done = subprocess.run([program, "replay", file.name], input=b"".join(bytes_of(*it) for it in asked), capture_output=True)
    told = [it.split(b"\r\n\r\n", 1)[1].decode() for it in done.stdout.split(b"HTTP/1.1 ")[1:]]
    for it, got, want in zip(asked, told, wanted):
        if got != want:
            print(f"seed {seed}: {it}\n got {got}\nwant {want}\n app {json.dumps(app.file, ensure_ascii=False)}")
            return None
    if done.returncode or len(told) != len(wanted):
        print(f"seed {seed}: status {done.returncode}, {len(told)} replies of {len(wanted)}: {done.stderr.decode()}\n app {json.dumps(app.file, ensure_ascii=False)}")
        return None
    return len(asked)


def main():
    words = sys.argv[1:]
    program = words.pop(0) if words and not words[0].isdigit() else f"{sys.path[0]}/../pfx"
    first, last = (int(words[0]), int(words[1])) if words else (0, 500)
    counts = [differs(program, seed) for seed in range(first, last)]
    print(f"{sum(it or 0 for it in counts)} requests of {len(counts)} apps; {counts.count(None)} apps differ")
    sys.exit(1 if None in counts else 0)


if __name__ == "__main__":
    main()
