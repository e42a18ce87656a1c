#!/usr/bin/env python3
"""Plays random query expressions over random small tables against a plain model, layer by layer, and compares each value.

    bench/queries.py [PFX] [FIRST LAST]

PFX is the built program, ./pfx where none is given. Each seed from FIRST up to but without LAST, 0 and 500 where none are given,
makes a table of at most eight rows, with columns that are indexed by chance, and an app of ten named formulas over it, with a row
limit of 1 to 4: in a replay a desk adds the rows, and a session is shown the formulas. The model evaluates each filter and each
order by itself over all rows, so it knows no plan, no index and no range. Two formulas of five are over a filter with conditions of
both kinds, which can be asked of the keeper and which can't: of it the model evaluates the former over all rows, and the others over
the first rows of what these give. The first values that differ are printed, and the status is then 1."""
import json
import random
import subprocess
import sys
import tempfile

ONE = 10_000
DIV0 = {"e": {"kind": "Div0", "message": ""}}
INVALID = {"e": {"kind": "InvalidArgument", "message": ""}}
NUMBERS = [-ONE, 0, ONE, 2 * ONE, ONE * 5 // 2]
TEXTS = ["", "a", "A", "ab", "Straße", "strasse", "ﬁn", "fin"]


class Failed(Exception):
    """An error as a value, which is the answer of what it stands in."""


def text_of(units):
    """Returns a number's text, of its count of ten-thousandths."""
    whole, part = divmod(abs(units), ONE)
    return ("-" if units < 0 else "") + str(whole) + (f".{part:04d}".rstrip("0") if part else "")


def number_json(value):
    """Returns the JSON of a number or a blank one."""
    if value is None:
        return None
    return value // ONE if value % ONE == 0 else {"n": text_of(value)}


def quoted(text):
    return '"' + text.replace('"', '""') + '"'


# ---- conditions: each has its text, and a test of a row, which may fail


def literal(dice, column):
    """Returns a constant that fits a column: its text and a call that gives its value."""

    def fail(error):
        raise Failed(error)

    if dice.random() < 0.12:
        kind = dice.choice(["blank", "div0", "invalid"])
        if kind == "blank":
            return "Blank()", lambda: None
        error, number = (DIV0, "1/0") if kind == "div0" else (INVALID, 'Value("x")')
        text = {"N": number, "T": f"Text({number})", "B": f"({number} = 1)"}[column]
        return text, lambda: fail(error)
    if column == "N":
        units = dice.choice(NUMBERS)
        return text_of(units), lambda: units
    if column == "T":
        text = dice.choice(TEXTS)
        return quoted(text), lambda: text
    truth = dice.random() < 0.5
    return ("true" if truth else "false"), lambda: truth


def compared(a, sign, b):
    if sign == "=":
        return a == b and (a is None) == (b is None)
    if sign == "<>":
        return not compared(a, "=", b)
    a, b = a or 0, b or 0
    return {"<": a < b, "<=": a <= b, ">": a > b, ">=": a >= b}[sign]


def leaf(dice):
    kind = dice.choice(["compare"] * 5 + ["blank", "starts", "within", "flag", "constant"])
    if kind == "compare":
        column = dice.choice("NNTB")
        sign = dice.choice(["=", "<>"] + (["<", "<=", ">", ">="] * 2 if column == "N" else []))
        text, value = literal(dice, column)
        if dice.random() < 0.25:
            return f"{text} {sign} {column}", lambda row: compared(value(), sign, row[column])
        return f"{column} {sign} {text}", lambda row: compared(row[column], sign, value())
    if kind == "blank":
        column = dice.choice("NTB")
        return f"IsBlank({column})", lambda row: row[column] is None or row[column] == ""
    if kind == "flag":
        return "B", lambda row: row["B"]
    text, value = literal(dice, "B" if kind == "constant" else "T")
    if kind == "constant":
        return text, lambda row: value()
    if kind == "starts":
        return f"StartsWith(T, {text})", lambda row: (row["T"] or "").casefold().startswith((value() or "").casefold())
    return f"{text} in T", lambda row: (value() or "").casefold() in (row["T"] or "").casefold()


def condition(dice, depth=2):
    if depth == 0 or dice.random() < 0.5:
        return leaf(dice)
    kind = dice.choice(["&&", "||", "!"])
    a_text, a = condition(dice, depth - 1)
    if kind == "!":
        return f"!({a_text})", lambda row: not a(row)
    b_text, b = condition(dice, depth - 1)
    if kind == "&&":
        return f"({a_text}) && ({b_text})", lambda row: bool(a(row)) and bool(b(row))
    return f"({a_text}) || ({b_text})", lambda row: bool(a(row)) or bool(b(row))


# ---- layers


def filtered(rows, tests):
    """Evaluates all tests of all rows: the first error in the order of rows, and of one row from the left, is the answer."""
    kept = []
    for row in rows:
        met = []
        error = None
        for test in tests:
            try:
                met.append(test(row))
            except Failed as failed:
                error = error or failed
        if error:
            raise error
        if all(met):
            kept.append(row)
    return kept


def rank(value):
    return (0, 0) if value is None else (1, value)


def query(dice):
    """Returns a query expression: its text and a call that gives its rows, or fails."""
    text, layers, sorted_yet = "Stock", [], False
    for _ in range(dice.randint(0, 3)):
        if not sorted_yet and dice.random() < 0.35:
            sorted_yet = True
            column = dice.choice(["ID", "N", "T", "B"])
            falls = dice.random() < 0.5
            text = f"Sort({text}, {column}, SortOrder.{'Descending' if falls else 'Ascending'})"
            layers.append(lambda rows, c=column, f=falls: sorted(rows, key=lambda row: rank(row[c]), reverse=f))
        else:
            parts = [condition(dice) for _ in range(dice.randint(1, 2))]
            text = f"Filter({text}, {', '.join(part[0] for part in parts)})"
            layers.append(lambda rows, tests=[part[1] for part in parts]: filtered(rows, tests))

    def whole(rows):
        for layer in layers:
            rows = layer(rows)
        return rows

    return text, whole


def other(dice):
    """Returns a condition that a keeper can't be asked: its text and a test of a row, which may fail."""
    kind = dice.choice(["length", "sum", "quotient", "column", "joined"])
    if kind == "length":
        least = dice.randint(0, 2)
        return f"Len(T) > {least}", lambda row: len(row["T"] or "") > least
    if kind == "sum":
        units = dice.choice(NUMBERS)
        return f"N + 0 < {text_of(units)}", lambda row: (row["N"] or 0) < units
    if kind == "quotient":

        def is_above(row):
            if not row["N"]:
                raise Failed(DIV0)
            return row["N"] > 0

        return "1 / N > 0", is_above
    if kind == "column":
        return "ID > N", lambda row: row["ID"] * ONE > (row["N"] or 0)
    text, test = condition(dice, 1)
    return f"({text}) && Len(T) > 0", lambda row: bool(test(row)) and len(row["T"] or "") > 0


def mixed(dice, limit):
    """Returns a filter with conditions of both kinds: its text and a call that gives its rows, or fails."""
    text, whole = query(dice)
    asked = [condition(dice) for _ in range(dice.randint(1, 2))]
    others = [other(dice) for _ in range(dice.randint(1, 2))]
    parts = [part[0] for part in asked]
    for part in others:
        parts.insert(dice.randint(0, len(parts)), part[0])
    # the others in the order in which they stand
    others.sort(key=lambda part: next(place for place, written in enumerate(parts) if written is part[0]))

    def taken(rows):
        first = filtered(whole(rows), [part[1] for part in asked])[:limit]
        return filtered(first, [part[1] for part in others])

    return f"Filter({text}, {', '.join(parts)})", taken


def average(total, count):
    quotient, rest = divmod(abs(total), count)
    units = quotient + (1 if 2 * rest >= count else 0)
    return -units if total < 0 else units


def total_of(kind, values):
    """Returns the sum, the least, the greatest or the mean of numbers; of none blank."""
    values = [value for value in values if value is not None]
    if not values:
        return None
    if kind == "Average":
        return average(sum(values), len(values))
    return {"Sum": sum, "Min": min, "Max": max}[kind](values)


def row_json(row):
    return {"B": row["B"], "ID": row["ID"], "N": number_json(row["N"]), "T": row["T"]}


def formula(dice, limit):
    """Returns a formula over rows of the table: its text and a call that gives its value as JSON, or fails."""
    text, whole = mixed(dice, limit) if dice.random() < 0.4 else query(dice)
    kind = dice.choice(["CountRows", "First", "LookUp", "Sum", "Min", "Max", "Average", "own", "count of the first", "total of the first", "Last"])
    if kind == "CountRows":
        return f"CountRows({text})", lambda rows: len(whole(rows))
    if kind == "First":
        return f"First({text}).ID", lambda rows: next((row["ID"] for row in whole(rows)), None)
    if kind == "LookUp":
        test_text, test = condition(dice)
        return f"LookUp({text}, {test_text}).ID", lambda rows: next((row["ID"] for row in filtered(whole(rows), [test])), None)
    if kind == "own":
        return text, lambda rows: [row_json(row) for row in whole(rows)[:limit]]
    if kind == "count of the first":
        return f"CountRows(Filter({text}, Len(T) > 1))", lambda rows: len([row for row in whole(rows)[:limit] if len(row["T"] or "") > 1])
    if kind == "Last":
        return f"Last({text}).ID", lambda rows: next((row["ID"] for row in reversed(whole(rows)[:limit])), None)
    if kind == "total of the first":
        kind = dice.choice(["Sum", "Min", "Max", "Average"])
        return f"{kind}({text}, N + 0)", lambda rows: number_json(total_of(kind, [row["N"] or 0 for row in whole(rows)[:limit]]))
    return f"{kind}({text}, N)", lambda rows: number_json(total_of(kind, [row["N"] for row in whole(rows)]))


# ---- runs


def request(method, path, body=None):
    text = json.dumps(body, ensure_ascii=False) if body is not None else ""
    length = f"Content-Length: {len(text.encode())}\r\n" if body is not None else ""
    return f"{method} {path} HTTP/1.1\r\n{length}\r\n{text}".encode()


def given(row):
    return {"N": number_json(row["N"]), "T": row["T"], "B": row["B"]}


def play(program, seed):
    """Plays a seed; returns what differs, if anything does."""
    dice = random.Random(seed)
    limit = dice.randint(1, 4)
    columns = [{"name": name, "type": kind, "indexed": dice.random() < 0.5} for name, kind in (("N", "Number"), ("T", "Text"), ("B", "Boolean"))]
    dice.shuffle(columns)
    rows = [
        {"ID": number, "N": dice.choice(NUMBERS + [None]), "T": dice.choice(TEXTS + [None]), "B": dice.choice([True, False, None])}
        for number in range(1, dice.randint(0, 8) + 1)
    ]
    formulas = [formula(dice, limit) for _ in range(10)]
    app = {
        "format": "pfx-1",
        "rowLimit": limit,
        "tables": [{"name": "Stock", "columns": columns}],
        "formulas": " ".join(f"Q{place} = {text};" for place, (text, _) in enumerate(formulas)),
        "screens": [{"name": "Home", "controls": []}],
    }
    stream = request("PUT", "/s/a") + request("GET", "/s/a/named")
    if rows:
        stream = request("POST", "/desk/d/rows", {"seq": 1, "changes": [{"op": "add", "table": "Stock", "row": given(row)} for row in rows]}) + stream
    with tempfile.NamedTemporaryFile("w", suffix=".json") as file:
        json.dump(app, file, ensure_ascii=False)
        file.flush()
        run = subprocess.run([program, "replay", file.name], input=stream, capture_output=True, check=False)
    if run.returncode != 0:
        return f"seed {seed}: status {run.returncode}: {run.stderr.decode()}{app['formulas']}"
    shown = json.loads(run.stdout.decode().rsplit("\r\n\r\n", 1)[1])
    if "named" not in shown:
        return f"seed {seed}: {shown}"
    for (text, value), named in zip(formulas, shown["named"]):
        try:
            wanted = value(rows)
        except Failed as failed:
            wanted = failed.args[0]
        if json.dumps(wanted) != json.dumps(named["value"]):
            return f"seed {seed}: {text}\n  rows {rows}\n  limit {limit}\n  wanted {wanted}\n  shown  {named['value']}"
    return None


def main():
    words = sys.argv[1:]
    program = words.pop(0) if words and not words[0].isdigit() else "./pfx"
    first, last = (int(words[0]), int(words[1])) if len(words) == 2 else (0, 500)
    for seed in range(first, last):
        told = play(program, seed)
        if told:
            print(told)
            sys.exit(1)
    print(f"{10 * (last - first)} formulas over {last - first} tables: none differed")


main()
