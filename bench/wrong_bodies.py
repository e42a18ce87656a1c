#!/usr/bin/env python3
"""Tries wrong bodies: edits that the prover must refuse, those that the gate tries and those on pages that it leaves out.

    bench/wrong_bodies.py [CRATE ..]    tries those of these crates, or one by CRATE/NAME (none: all), and notes what came of it
    bench/wrong_bodies.py --stale       names those that weren't refused on their crate as it stands
    bench/wrong_bodies.py --list        prints the list of docs/CLAIMS.md

The gate's stand in crates/NAME/must-fail/*.edit, the others in fenced blocks of must-fail/by_hand.md, each under a line with
its name and what it does. An edit may first cut its crate down to what it is about, by the pairs between a line `cut:` and a
line `wrong:`; the crate so cut must be proved without the rest. Libraries are built first where they changed, and what an
`rt check` kept of the crate is used. bench/wrong_bodies.txt has what came of each, with a sum of what it was tried on: the
crate's src, specs and proofs and the edit. It takes about as long as the proofs of these crates.
"""
import functools
import glob
import hashlib
import importlib.machinery
import importlib.util
import os
import re
import shutil
import sys
import tempfile
import typing

TOP = os.path.dirname(os.path.dirname(os.path.abspath(__file__)))
NOTES = f"{TOP}/bench/wrong_bodies.txt"
HEAD = "# Wrong bodies, a sum of what each was tried on, and what came of it. bench/wrong_bodies.py writes this.\n"
ONE_JOB = ["--jobs", "1"]


class Body(typing.NamedTuple):
    """A wrong body: its crate, its name, what it does, its edit, the part of that which cuts, and whether the gate tries it."""

    crate: str
    name: str
    does: str
    edit: str
    cut: str
    in_gate: bool

    def key(self):
        return f"{self.crate}/{self.name}"

    def state(self):
        """Returns a sum of the crate's files that are proved, and of the edit."""
        found = hashlib.sha256(self.edit.encode())
        for part in ("src", "specs", "proofs"):
            for path in sorted(glob.glob(f"{TOP}/crates/{self.crate}/{part}/**/*.*t", recursive=True)):
                with open(path, "rb") as file:
                    found.update(os.path.relpath(path, TOP).encode() + b"\0" + file.read())
        return found.hexdigest()[:12]


def wrong_bodies():
    """Returns all wrong bodies, by the crate's name and then by their own."""
    found = []
    for path in glob.glob(f"{TOP}/crates/*/must-fail/*"):
        crate, name = path.split("/")[-3], os.path.basename(path)
        with open(path) as file:
            text = file.read()
        if name.endswith(".edit"):
            cut, marked, rest = text.rpartition("wrong: ")
            does = rest.partition("\n")[0] if marked else ""
            found.append(Body(crate, name[: -len(".edit")], does, text, cut, True))
        for name, does, edit in re.findall(r"^`(\w+)\.edit`: (.*)\n\n```\n((?:.*\n)*?)```$", text, re.M):
            found.append(Body(crate, name, does, edit, "", False))
    return sorted(found)


def load_rt():
    """Returns the program rt as a module."""
    loader = importlib.machinery.SourceFileLoader("rt", os.path.realpath(shutil.which("rt")))
    made = importlib.util.module_from_spec(importlib.util.spec_from_loader("rt", loader))
    loader.exec_module(made)
    made.rtlib.guarded()
    return made


def build_below(crate):
    """Builds the libraries below a crate where they changed, and returns whether all are there."""
    return not any(it.build_rlib(ONE_JOB, anew=False) for it in crate.below())


def try_body(rt, crate, body, kept, why_unproved):
    """Returns what came of a wrong body, over the kept work in a folder."""
    why = why_unproved(body.cut)
    if why:
        return f"BAD: without it the crate isn't proved: {why}"
    with tempfile.TemporaryDirectory() as room:
        path = f"{room}/{body.name}.edit"
        with open(path, "w") as file:
            file.write(body.edit)
        refused, said = rt.must_fail(crate, path, ONE_JOB, kept)
        if not refused:
            refused, said = rt.must_fail(crate, path, ONE_JOB)
    return said.partition(f"{body.name}.edit: ")[2].partition("\n")[0].replace("refused, as it must be", "refused")


def try_crate(rt, crate, bodies):
    """Yields each wrong body of a crate and what came of it, over what checks kept of the crate."""
    with tempfile.TemporaryDirectory() as kept:
        if os.path.isdir(f"{crate.folder}/out/incremental"):
            shutil.copytree(f"{crate.folder}/out/incremental", kept, dirs_exist_ok=True)

        @functools.cache
        def why_unproved(cut):
            """Returns why the crate isn't proved with this cut, if it isn't."""
            texts, why = rt.edited(cut, crate.folder) if cut else ({}, None)
            ran = None if why else rt.checked(crate, texts, ONE_JOB, kept)
            return why or (ran.stdout.partition("\n")[0] if ran.returncode else "")

        for body in bodies:
            yield body, try_body(rt, crate, body, kept, why_unproved)


def try_all(bodies):
    """Tries wrong bodies, crate by crate, and notes what came of each at once. Returns whether all were refused."""
    rt, well = load_rt(), True
    os.chdir(TOP)
    for crate in rt.rtlib.crates_below(TOP):
        mine = [it for it in bodies if it.crate == crate.name]
        if not mine or not build_below(crate):
            well = well and not mine
            continue
        for body, came in try_crate(rt, crate, mine):
            well = well and came.startswith("refused")
            print(f"{body.key()}: {came}", flush=True)
            write_notes({**read_notes(), body.key(): (body.state(), came)})
    return well


def read_notes():
    """Returns what was noted of each wrong body: the sum and what came of it."""
    notes = {}
    if os.path.exists(NOTES):
        with open(NOTES) as file:
            for key, state, came in (line.rstrip("\n").split(" ", 2) for line in file if not line.startswith("#")):
                notes[key] = state, came
    return notes


def write_notes(notes):
    there = {it.key() for it in wrong_bodies()}
    with open(NOTES, "w") as file:
        file.write(HEAD + "".join(f"{key} {state} {came}\n" for key, (state, came) in sorted(notes.items()) if key in there))


def is_stale(body, notes):
    state, came = notes.get(body.key(), ("", ""))
    return state != body.state() or not came.startswith("refused")


def list_of(bodies):
    """Returns the list of wrong bodies for docs/CLAIMS.md, a line a crate."""
    lines = {}
    for body in bodies:
        by_hand = "" if body.in_gate else " (by hand)"
        lines.setdefault(body.crate, []).append(f"{body.does.rstrip('.')}{by_hand}")
    return "".join(f"- `{crate}`: {'; '.join(its)}.\n" for crate, its in sorted(lines.items()))


def main(words):
    bodies = wrong_bodies()
    if words == ["--list"]:
        print(list_of(bodies), end="")
        return 0
    if words == ["--stale"]:
        notes = read_notes()
        stale = [it.key() for it in bodies if is_stale(it, notes)]
        print("".join(f"{it}\n" for it in stale), end="")
        return 1 if stale else 0
    wanted = [it for it in bodies if not words or it.crate in words or it.key() in words]
    unknown = set(words) - {it.crate for it in wanted} - {it.key() for it in wanted}
    if unknown:
        sys.exit(f"no wrong body is named so: {' '.join(sorted(unknown))}")
    return 0 if try_all(wanted) else 1


if __name__ == "__main__":
    sys.exit(main(sys.argv[1:]))
