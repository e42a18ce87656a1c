#!/usr/bin/env python3
"""Says which names that the pages have in backticks exist nowhere, and where the map of crates isn't what crates.txt says.

usage: bench/pages.py

A name is looked for as a whole word in the repository's sources, which are what is proved, programs, examples and the names of
files; of a path as `fx_number::Num` each name, in its crate's. (docs/DIFFERENCES.md and docs/PROTOCOL.md name what isn't there.)
The headings of docs/CLAIMS.md name crates, each once. In docs/ARCHITECTURE.md each crate stands at its level, which is one more
than the highest below it, and has one paragraph. Whether a page says what is so can't be told here. The status is 1 where
anything is wrong.
"""
import glob
import os
import re
import sys

TOP = os.path.dirname(os.path.dirname(os.path.abspath(__file__)))
PAGES = ["README.md", "CONTRIBUTING.md", *sorted(glob.glob("docs/*.md", root_dir=TOP))]
OF_OTHERS = ["docs/DIFFERENCES.md", "docs/PROTOCOL.md"]
OF_CRATES = ["crates/{}/src/**/*", "crates/{}/specs/**/*", "crates/{}/proofs/**/*", "crates/{}/std*"]
OTHER_SOURCES = ["*", "bench/*.py", ".ci/*", "examples/**/*"]
NAME = re.compile(r"[A-Za-z_]\w*(?:(?:::|\.)[A-Za-z_]\w*)*")
MAP, CLAIMS = "docs/ARCHITECTURE.md", "docs/CLAIMS.md"


def text_of(path):
    with open(f"{TOP}/{path}", encoding="utf-8", errors="replace") as file:
        return file.read()


def words_of(patterns):
    """Returns the words of some sources and of their paths."""
    found = set()
    for pattern in patterns:
        for path in glob.glob(pattern, root_dir=TOP, recursive=True):
            found.update(re.findall(r"\w+", path))
            if os.path.isfile(f"{TOP}/{path}") and not path.endswith(".md"):
                found.update(re.findall(r"\w+", text_of(path)))
    return found


def names_of(page):
    """Yields each name in backticks of a page with its line. What stands in fenced blocks are examples."""
    fenced = False
    for number, line in enumerate(text_of(page).split("\n"), 1):
        fenced = fenced != line.startswith("```")
        for said in [] if fenced else re.findall(r"`([^`]+)`", line):
            if NAME.fullmatch(said):
                yield number, said


def unknown_names(crates):
    """Yields each name of a page that no source has."""
    of_crate = {name: words_of([it.format(name) for it in OF_CRATES]) for name in crates}
    everywhere = words_of(OTHER_SOURCES).union(*of_crate.values())
    for page in PAGES:
        for number, said in [] if page in OF_OTHERS else names_of(page):
            names = re.split(r"::|\.", said)
            known = of_crate[names[0]] | {names[0]} if "::" in said and names[0] in crates else everywhere
            yield from (f"{page}:{number}: `{said}`: nothing is called {it}" for it in names if it not in known)


def below():
    """Returns the crates of the repository, each with those that it names."""
    lines = [it.partition(":") for it in text_of("crates.txt").split("\n") if it and not it.startswith("#")]
    names = {it[0] for it in lines}
    return {name: [it for it in rest.split() if it in names] for name, _, rest in lines}


def levels(crates):
    """Returns the level of each crate: those below it stand before it in crates.txt."""
    found = {}
    for name, its in crates.items():
        found[name] = 1 + max((found[it] for it in its), default=0)
    return found


def drawn_levels(page):
    """Returns the level at which the map draws each crate, or at which the words before it name it."""
    found, level = {name: int(at) for name, at in re.findall(r"`(\w+)` \((\d+)\)", page)}, 0
    for line in re.search(r"```\nlevel .*\n((?:.*\n)*?)```", page)[1].split("\n"):
        level = int(line[:4].strip() or level)
        found.update(dict.fromkeys(line[4:].split(), level))
    return found


def wrong_headings(crates):
    """Yields what headings name that is no crate, or is named twice."""
    named = [it for line in re.findall(r"^## .*", text_of(CLAIMS), re.M) for it in re.findall(r"`(\w+)`", line)]
    yield from (f"{CLAIMS}: a heading names {it}" for it in named if it not in crates or named.count(it) > 1)


def wrong_crates(crates):
    """Yields each crate that is drawn at another level than it has, or hasn't one paragraph."""
    page, is_at = text_of(MAP), levels(crates)
    drawn = drawn_levels(page)
    told = re.findall(r"^- `(\w+)`: ", page, re.M)
    for name in sorted(set(drawn) | set(is_at)):
        if drawn.get(name) != is_at.get(name):
            yield f"{MAP}: {name} is drawn at level {drawn.get(name)}, and stands at {is_at.get(name)}"
    for name in sorted(set(told) | set(is_at)):
        if told.count(name) != (name in is_at):
            yield f"{MAP}: {name} has {told.count(name)} paragraphs"


def main():
    crates = below()
    wrong = [*unknown_names(crates), *wrong_headings(crates), *wrong_crates(crates)]
    print("\n".join([*wrong, f"{len(wrong)} wrong"]))
    return 1 if wrong else 0


if __name__ == "__main__":
    sys.exit(main())
