#!/usr/bin/env python3
"""Shows where each line of `pfx check APP` or `pfx view FILE` points: line, column and a caret under the place.

    examples/tools/lines.py APP|FILE [PFX]

PFX is the program, ./pfx of this checkout where none is given. The status is that of the program.
"""
import json
import os
import re
import subprocess
import sys

PROGRAM = os.path.dirname(os.path.abspath(__file__)) + "/../../pfx"
LINE = re.compile(r"(?P<cell>.*?): (?P<broken>E\d+ \w+) at (?P<at>\d+): (?P<detail>.*)")
# A named formula: its name, and its text up to the `;` behind it. Neither texts nor comments are looked into.
NAMED = re.compile(r"""\s*(?P<name>'(?:[^']|'')*'|[^\s=;'"]+)\s*=\s*(?P<text>(?:"[^"]*"|'[^']*'|//[^\n]*|/\*.*?\*/|[^;"'])*);?""", re.S)


def spelt(name):
    return "'" + name.replace("'", "''") + "'" if re.search("[.']", name) else name


def unspelt(name):
    return name[1:-1].replace("''", "'") if name.startswith("'") else name


def blank_comments(text):
    """Puts spaces in the place of comments, so that every byte stays where it is."""
    pattern = r"""("(?:[^"])*"|'[^']*')|//[^\n]*|/\*.*?\*/"""
    return re.sub(pattern, lambda it: it[1] or re.sub(r"[^\n]", lambda c: " " * len(c[0].encode()), it[0]), text, flags=re.S)


def named(text):
    """Yields the address of each named formula with the whole text, and the byte at which its first token begins there."""
    for found in NAMED.finditer(blank_comments(text)):
        yield unspelt(found["name"]), (text, len(found.string[: found.start("text")].encode()))


def formulas(file):
    """Returns the text in which each formula stands, and the byte at which it begins there, by its address."""
    with open(file, encoding="utf-8", newline="") as it:
        text = it.read()
    try:
        app = json.loads(text)
    except ValueError:
        return {"App.Formulas": (text, 0), **dict(named(text))}
    found = {"App.Formulas": app.get("formulas", ""), "App.OnStart": app.get("onStart", "")}
    for screen in app.get("screens", []):
        found[f"{spelt(screen['name'])}.OnVisible"] = screen.get("onVisible", "")
        for control in screen["controls"]:
            found |= {f"{spelt(control['name'])}.{it}": text for it, text in control.get("properties", {}).items()}
    return {**dict(named(found["App.Formulas"])), **{name: (text, 0) for name, text in found.items()}}


def shown(line, texts):
    """Returns a line of the program with its place shown, or the line alone where it tells of no place in a formula."""
    found = LINE.fullmatch(line)
    if not found or found["cell"] not in texts or found["broken"] in ("E10 Cycle", "E13 LimitPassed"):
        return line
    text, begin = texts[found["cell"]]
    before = text.encode()[: begin + int(found["at"])].decode(errors="replace")
    row, column = before.count("\n"), len(before) - (before.rfind("\n") + 1)
    source = (text.split("\n") + [""])[row].rstrip("\r")
    gap = "".join("\t" if it == "\t" else " " for it in source[:column])
    return f"{found['cell']}, line {row + 1}, column {column + 1}: {found['broken']}: {found['detail']}\n    {source}\n    {gap}^"


def main(file, program=PROGRAM):
    word = "view" if file.endswith(".fx") else "check"
    told = subprocess.run([program, word, file], capture_output=True, text=True, check=False)
    sys.stderr.write(told.stderr)
    texts = formulas(file) if told.returncode == 1 else {}
    for line in told.stdout.splitlines():
        print(shown(line, texts))
    return told.returncode


if __name__ == "__main__":
    sys.exit(main(*sys.argv[1:]))
