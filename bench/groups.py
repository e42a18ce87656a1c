#!/usr/bin/env python3
"""Groups random small tables by random keys, takes the groups out again, and compares each value with a plain model's.

    bench/groups.py [PFX] [FIRST LAST]

PFX is the built program, ./pfx where none is given. Each seed from FIRST up to but without LAST, 0 and 300 where none are given,
makes a file of ten formulas, which `view` shows: `GroupBy` of tables of at most seven rows that are written out, by one to three
keys, of which one may stand twice, and `Ungroup` of that and of tables of groups that are written out. Values are numbers, texts
and truth values, blank ones and errors among them, and a group may be blank or an error. The first value that differs is printed,
and the status is then 1."""
import random
import subprocess
import sys
import tempfile

BLANK, DIV0, INVALID = ("blank",), ("error", "Div0"), ("error", "InvalidArgument")
# by kind: a way to write a blank value and errors of its type, and values as they are written and shown
KINDS = {
    "N": ("If(false, 1)", "1/0", 'Value("x")', ["1", "2", "0.5", "-3"]),
    "T": ("If(false, \"a\")", "Text(1/0)", 'Text(Value("x"))', ['""', '"a"', '"A"', '"b,c"']),
    "B": ("If(false, true)", "(1/0 = 1)", '(Value("x") = 1)', ["true", "false"]),
}


def cell(dice, kind, errors):
    """Returns how a value is written, and the value: text that is shown, BLANK or an error."""
    blank, div0, invalid, values = KINDS[kind]
    if dice.random() < 0.2:
        return blank, BLANK
    if dice.random() < errors:
        return dice.choice([(div0, DIV0), (invalid, INVALID)])
    value = dice.choice(values)
    return value, value


def table(dice, kinds, least, errors):
    """Returns a table as it is written, and its rows: for each column how its value is written, and the value."""
    rows = [{name: cell(dice, kinds[name], errors) for name in kinds} for _ in range(dice.randint(least, 7))]
    written = ", ".join("{" + ", ".join(f"{name}: {row[name][0]}" for name in kinds) + "}" for row in rows)
    return f"[{written}]", [{name: row[name][1] for name in kinds} for row in rows]


def is_error(value):
    return isinstance(value, tuple) and value[0] == "error"


def grouped(rows, keys):
    for row in rows:
        for key in keys:
            if is_error(row[key]):
                return row[key]
    groups = {}
    for row in rows:
        groups.setdefault(tuple(row[key] for key in keys), []).append(row)
    return [
        {**{key: members[0][key] for key in keys}, "G": [{n: v for n, v in row.items() if n not in keys} for row in members]}
        for members in groups.values()
    ]


def ungrouped(rows):
    if is_error(rows):
        return rows
    made = []
    for row in rows:
        if is_error(row["G"]):
            return row["G"]
        others = {name: value for name, value in row.items() if name != "G"}
        made += [{**others, **member} for member in ([] if row["G"] == BLANK else row["G"])]
    return made


def shown(value):
    if value == BLANK:
        return "Blank()"
    if is_error(value):
        return f"Error({value[1]})"
    if isinstance(value, list):
        return "[" + ", ".join(map(shown, value)) + "]"
    if isinstance(value, dict):
        return "{" + ", ".join(f"{name}: {shown(value[name])}" for name in sorted(value)) + "}"
    return value


def group(dice):
    """Returns a group as it is written, and its rows, BLANK or an error."""
    if dice.random() < 0.15:
        return "If(false, [{V: 1}])", BLANK
    if dice.random() < 0.1:
        return "If(1/0 = 1, [{V: 1}])", DIV0
    return table(dice, {"V": "N"}, 1, 0.1)


def formula(dice):
    """Returns a formula, and its value."""
    if dice.random() < 0.3:
        groups = [(cell(dice, "T", 0.1), group(dice)) for _ in range(dice.randint(1, 5))]
        written = ", ".join("{K: " + key[0] + ", G: " + members[0] + "}" for key, members in groups)
        # (a first row with a group makes the column one of tables)
        written = "{K: \"a\", G: [{V: 1}]}, " + written
        rows = [{"K": '"a"', "G": [{"V": "1"}]}] + [{"K": key[1], "G": members[1]} for key, members in groups]
        return f"Ungroup([{written}], G)", ungrouped(rows)
    kinds = {name: dice.choice("NTB") for name in dice.sample("KLMV", dice.randint(2, 4))}
    written, rows = table(dice, kinds, 1, 0.1)
    keys = dice.sample(list(kinds), dice.randint(1, len(kinds) - 1))
    said = keys + ([dice.choice(keys)] if dice.random() < 0.2 else [])
    call, value = f"GroupBy({written}, {', '.join(said)}, G)", grouped(rows, keys)
    return (f"Ungroup({call}, G)", ungrouped(value)) if dice.random() < 0.4 else (call, value)


def play(program, seed):
    """Returns what differs first, if anything does."""
    dice = random.Random(seed)
    formulas = [formula(dice) for _ in range(10)]
    with tempfile.NamedTemporaryFile("w", suffix=".fx", encoding="utf-8") as file:
        file.write("".join(f"X{at} = {text};\n" for at, (text, _) in enumerate(formulas)))
        file.flush()
        made = subprocess.run([program, "view", file.name], capture_output=True, text=True, check=False)
    lines = dict(line.split(" = ", 1) for line in made.stdout.splitlines() if " = " in line)
    for at, (text, value) in enumerate(formulas):
        if lines.get(f"X{at}") != shown(value):
            return f"seed {seed}: {text}\nis      {lines.get(f'X{at}', made.stdout + made.stderr)}\nand not {shown(value)}"
    return None


def main():
    words = sys.argv[1:]
    program = words.pop(0) if words and not words[0].isdigit() else "./pfx"
    first, last = (int(words[0]), int(words[1])) if len(words) == 2 else (0, 300)
    for seed in range(first, last):
        told = play(program, seed)
        if told:
            print(told)
            sys.exit(1)
    print(f"{10 * (last - first)} formulas: none differed")


main()
