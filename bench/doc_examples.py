#!/usr/bin/env python3
"""Runs the examples of README.md and docs/ to the letter, and compares what comes of them.

    bench/doc_examples.py [PFX]

PFX is the built program, ./pfx where none is given. An example is

- a block of commands, each behind `$ `, with what they print below them. They run in a folder that has the repository's
  examples, with ports and databases of their own;
- a request in a block, with its body where it has a length, and below it the body of its reply. The requests below one
  name of an app, as `examples/shop.json`, are one conversation with it;
- a formula with its value, as `1 + 1` is 2, also in a table, where the formula alone has that value.
"""
import json
import os
import re
import socket
import subprocess
import sys
import tempfile

TOP = os.path.dirname(os.path.dirname(os.path.abspath(__file__)))
PROGRAM = os.path.abspath(sys.argv[1]) if len(sys.argv) > 1 else f"{TOP}/pfx"
PAGES = ["README.md", "CONTRIBUTING.md", "examples/booking.md", "examples/site/README.md", *(f"docs/{it}" for it in sorted(os.listdir(f"{TOP}/docs")))]
REQUEST = re.compile(r"(GET|PUT|POST|DELETE) /\S* HTTP/1\.1\n")
FORMULA = re.compile(r"`([^`]+)` (?:is|are) (`[^`]+`|-?\d+(?:\.\d+)?|true|false|\d{4}-\d\d-\d\d)(?![-\w`])(?! at )")
# Formulas whose value needs what stands around them.
NEEDS_MORE = re.compile(r"""\[@|Today\(\)|^\d+$|^(?=.*[^\W\d])[^()"\[{]*$""")


def blocks(text):
    """Yields the blocks of a page that stand apart, without their indent, with the text before each."""
    before = []
    lines = text.split("\n")
    while lines:
        line = lines.pop(0)
        if not line.startswith("    "):
            before.append(line)
            continue
        block = [line]
        while lines and (lines[0].startswith("    ") or not lines[0] and len(lines) > 1 and lines[1].startswith("    ")):
            block.append(lines.pop(0))
        yield "\n".join(before), "\n".join(it[4:] for it in block).rstrip()
        before = []


def differ(place, want, got):
    if want != got:
        print(f"DIFFERS: {place}\n--- the page\n{want}\n--- the program\n{got}\n")
    return want != got


# ---- Commands


def free_port():
    with socket.socket() as door:
        door.bind(("127.0.0.1", 0))
        return str(door.getsockname()[1])


def commands(page, text):
    """Runs the blocks of commands of a page, one after another in one shell, and yields whether each printed something else."""
    runs = [block for _, block in blocks(text) if block.startswith("$ ")]
    if not runs:
        return
    ports = {it: free_port() for it in set(re.findall(r"\b80\d\d\b", "\n".join(runs)))}
    with tempfile.TemporaryDirectory() as folder:
        for name in ("examples", "docs"):
            os.symlink(f"{TOP}/{name}", f"{folder}/{name}")
        os.symlink(PROGRAM, f"{folder}/pfx")
        script, wanted = ["set +m", "trap 'kill $(jobs -p)' EXIT"], []
        for block in runs:
            for command, said in re.findall(r"^\$ (.*)\n?((?:(?!\$ ).*\n?)*)", block, re.M):
                for old, new in ports.items():
                    command = command.replace(old, new)
                if command.endswith("&"):
                    port = re.search(r" (\d+)\b[^/]*$", command)[1]
                    command += f"\nuntil (: < /dev/tcp/127.0.0.1/{port}) 2>/dev/null; do sleep 0.02; done"
                wanted.append((command, said.rstrip("\n")))
                script.append(f"{command}\nprintf '\\n@@ %s\\n' $?")
        ran = subprocess.run(["bash", "-c", "\n".join(script)], cwd=folder, capture_output=True, text=True, check=False)
    told = re.split(r"\n@@ \d+\n", ran.stdout)
    for (command, said), got in zip(wanted, told):
        yield differ(f"{page}: {command.split(chr(10))[0]}", said, got.strip("\n"))


# ---- Requests


def replies(stream):
    """Returns the bodies of the replies in what a replay printed."""
    found = []
    while stream:
        head, _, rest = stream.partition(b"\r\n\r\n")
        length = int(re.search(rb"Content-Length: (\d+)", head)[1])
        found.append(rest[:length].decode())
        stream = rest[length:]
    return found


def requests(page, text):
    """Puts the requests of a page to the apps that it names before them, and yields whether each got another reply."""
    app, talks = None, []
    for before, block in blocks(text):
        named = re.findall(r"`(examples/\w+\.json)`", before)
        if named:
            app = named[-1]
        parts = block.split("\n\n")
        if not REQUEST.match(parts[0] + "\n"):
            continue
        if not talks or named:
            talks.append((app, []))
        while parts:
            head = parts.pop(0)
            body = parts.pop(0) if "Content-Length" in head else ""
            reply = parts.pop(0) if parts and parts[0].startswith("{") else None
            talks[-1][1].append((f"{head}\n\n{body}", reply))
    for app, talk in talks:
        stream = "".join(it for it, _ in talk).encode()
        ran = subprocess.run([PROGRAM, "replay", f"{TOP}/{app}"], input=stream, capture_output=True, check=False)
        got = replies(ran.stdout)
        assert len(got) == len(talk), f"{page}, {app}: {len(talk)} requests got {len(got)} replies: {ran.stdout} {ran.stderr}"
        for (asked, want), reply in zip(talk, got):
            if want is not None:
                yield differ(f"{page}, {app}: {asked}", want, reply if "\n" not in want else spread(want, reply))


def spread(want, reply):
    """Returns the page's own text where it is the reply but for white space between its parts."""
    return want if json.loads(want) == json.loads(reply) else reply


# ---- Formulas


def formulas(page, text):
    """Yields whether a formula of a page has another value than the one that stands beside it."""
    found = [(it, value.strip("`")) for it, value in FORMULA.findall(text.replace("\\|", "|")) if not NEEDS_MORE.search(it)]
    if not found:
        return
    with tempfile.NamedTemporaryFile("w", suffix=".fx", encoding="utf-8") as file:
        file.write("".join(f"F{place} = {it};\n" for place, (it, _) in enumerate(found)))
        file.flush()
        ran = subprocess.run([PROGRAM, "view", file.name], capture_output=True, text=True, check=False)
    if ran.returncode:
        told = {int(it): line for line, it in re.findall(r"^(F(\d+): .*)$", ran.stdout, re.M)}
        for place, line in told.items():
            yield differ(f"{page}: {found[place][0]}", found[place][1], line)
        return
    for line, (formula, value) in zip(ran.stdout.splitlines(), found):
        yield differ(f"{page}: {formula}", value, line.partition(" = ")[2])


def main():
    count = wrong = 0
    for page in PAGES:
        with open(f"{TOP}/{page}", encoding="utf-8") as file:
            text = file.read()
        for kind in (commands, requests, formulas):
            for differs in kind(page, text):
                count, wrong = count + 1, wrong + differs
    print(f"{count} examples, {wrong} differ")
    return wrong > 0


if __name__ == "__main__":
    sys.exit(main())
