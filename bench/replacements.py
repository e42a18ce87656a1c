#!/usr/bin/env python3
"""Replaces random small apps by random ones against a plain model, and compares each reply byte for byte.

    bench/replacements.py [PFX] [FIRST LAST [served]]

PFX is the built program, ./pfx where none is given. With `served` the plays go over loopback to a server whose rows are in a
database's file; behind each one the server is started again over it, with the last app and with the first one. Each seed from FIRST up to but without LAST, 0 and 500 where none are given,
plays sixty requests of two sessions and a desk over apps of one to three tables, screens, inputs, galleries, variables and
collections, whose names come from a few. A fourth of the requests replace the app by another one, most of them with moves of
tables and columns, some with moves or apps that are refused; the others change rows, act, give inputs, choose items and look at
what is shown. The first replies that differ are printed, and the status is then 1. At the end stands how many replacements were
accepted, and how many were refused by which rule."""
import collections
import http.client
import json
import random
import subprocess
import sys
import tempfile

from behaviour import bytes_of, compact
from behaviour_model import Office, body_of, refused, source_of
from serve import free_port, listen

TABLES = ("Ant", "Bee", "Cat", "Dog")
COLUMNS = {"W": "Text", "X": "Number", "Y": "Number", "Z": "Boolean"}
FLAGS = {"required": 0.06, "unique": 0.1, "indexed": 0.25}
SCREENS = ("Home", "Other", "Third")
INPUTS = {"Slider": ("Value", ["1", "3", "12"]), "Checkbox": ("Value", ["true", "false"]), "TextInput": ("Text", ['"ab"', '""'])}
# What variables are set to, and what is collected, by type.
VALUES = {"Number": ["{0} + 1", "7", "CountRows({1})"], "Text": ['{0} & "t"', '"u"'], "Boolean": ["!{0}", "true"]}
ROWS = ["{{A: {0}}}", '{{A: {0}, B: "b"}}', '{{A: "{0}"}}']
# A row of four columns weighs too much with it, and one of three doesn't.
LONG = "x" * 1_990


class App:
    """A random app. `file` is its file; the rest says what requests may name."""

    def __init__(self, dice):
        self.dice = dice
        self.tables = [self.table(name) for name in dice.sample(TABLES, dice.randint(1, 3))]
        self.names = dice.sample(SCREENS, dice.randint(1, 3))
        self.screens = {name: [] for name in self.names}
        self.globals = {name: dice.choice(list(VALUES)) for name in ("g", "h", "i") if dice.random() < 0.7}
        self.context = {name: dice.choice(list(VALUES)) for name in self.names if dice.random() < 0.6}
        self.gathered = {name: dice.choice(ROWS) for name in ("p", "q") if dice.random() < 0.7}
        self.formulas = []
        self.add_buttons()
        self.add_inputs()
        self.add_galleries()
        self.add_queries()
        for controls in self.screens.values():
            dice.shuffle(controls)
        dice.shuffle(self.formulas)
        self.file = {"format": "pfx-1", "rowLimit": dice.choice([2, 500]), "tables": self.tables, "formulas": " ".join(self.formulas),
                     "onStart": self.chance(0.5, self.acts), "screens": [self.screen(name) for name in self.names]}

    def chance(self, chance, make, *given):
        return make(*given) if self.dice.random() < chance else ""

    def table(self, name):
        columns = []
        for it in self.dice.sample(list(COLUMNS), self.dice.randint(1, 4)):
            ty = COLUMNS[it] if self.dice.random() < 0.95 else self.dice.choice(["Text", "Number", "Boolean"])
            flags = {flag: True for flag, chance in FLAGS.items() if self.dice.random() < chance}
            columns.append({"name": it, "type": ty, **flags})
        return {"name": name, "columns": columns}

    def screen(self, name):
        # What a gallery holds stands behind it.
        controls = sorted(self.screens[name], key=lambda it: "in" in it)
        return {"name": name, "onVisible": self.chance(0.3, self.acts, name), "controls": controls}

    def add(self, screen, name, kind, **properties):
        self.screens[screen].append({"name": name, "kind": kind, "properties": properties})

    def acts(self, screen=None):
        """A chain that gives values to variables, one of the screen among them, and fills collections."""
        dice, table = self.dice, self.dice.choice(self.tables)["name"]
        parts = [f"Set({it}, {dice.choice(VALUES[ty]).format(it, table)})" for it, ty in self.globals.items()]
        parts += [f"Collect({it}, {row.format(dice.randint(1, 9))})" for it, row in self.gathered.items()]
        if screen in self.context:
            parts.append(f"UpdateContext({{k: {dice.choice(VALUES[self.context[screen]]).format('k', table)}}})")
        return "; ".join(dice.sample(parts, len(parts)))

    def add_buttons(self):
        for place, name in enumerate(self.names):
            self.add(name, f"To{self.names[place - 1]}", "Button", OnSelect=f"Navigate({self.names[place - 1]})")
            self.add(name, f"Fill{name}", "Button", OnSelect=self.acts(name))
            told = [*self.globals, *(["k"] if name in self.context else []), *(f'Concat({it}, A, "+")' for it in self.gathered)]
            self.add(name, f"Show{name}", "Label", Text=' & "," & '.join(['""', *told]))

    def add_inputs(self):
        for name in ("I0", "I1", "I2", "I3"):
            kind = self.dice.choice([*INPUTS, *INPUTS, "Label", None])
            if kind is None:
                continue
            screen, (what, defaults) = self.dice.choice(self.names), INPUTS.get(kind, (None, None))
            self.add(screen, name, kind, **({"Default": self.dice.choice(defaults)} if what else {}))
            if what:
                self.formulas.append(f"Of{name} = {name}.{what};")

    def add_galleries(self):
        for name in ("L0", "L1"):
            kind = self.dice.choice(["Gallery", "Gallery", "Label", None])
            if kind is None:
                continue
            screen, table = self.dice.choice(self.names), self.dice.choice(self.tables)
            column = self.dice.choice(table["columns"])["name"]
            if kind == "Label":
                self.add(screen, name, kind)
                continue
            self.add(screen, name, kind, Items=self.dice.choice([table["name"], f"Sort({table['name']}, ID, SortOrder.Descending)", f"Filter({table['name']}, ID > 1)"]))
            self.add(screen, f"In{name}", "Label", Text=f'ThisItem.ID & "," & Left(ThisItem.{column} & "", 3)')
            self.screens[screen][-1]["in"] = name
            self.formulas.append(f'Of{name} = {name}.Selected.ID & "," & Left({name}.Selected.{column} & "", 3);')

    def add_queries(self):
        for table in self.tables:
            name = table["name"]
            self.formulas.append(f"Count{name} = CountRows({name});")
            for it in table["columns"]:
                column, condition = it["name"], {"Text": 'StartsWith({}, "a")', "Number": "{} > 1", "Boolean": "{}"}[it["type"]].format(it["name"])
                self.formulas += self.dice.sample([f"Some{name}{column} = CountRows(Filter({name}, {condition}));", f"Look{name}{column} = LookUp({name}, {condition}).ID;",
                                                   f'All{name}{column} = Concat({name}, ID & Left({column} & "", 3), " ");'], self.dice.randint(0, 2))

    def controls(self):
        return [it["name"] for controls in self.screens.values() for it in controls]


def columns_of(table):
    return {it["name"]: it["type"] for it in table["columns"]}


def moves_of(dice, old, new):
    """Random moves from one app to another, most of which are well."""
    moves, free = [], [it["name"] for it in new.tables]
    for table in dice.sample(old.tables, len(old.tables)):
        if free and dice.random() < 0.55:
            moves.append({"table": table["name"], "to": free.pop(dice.randrange(len(free)))})
    olds = Office({**old.file, "formulas": "", "onStart": "", "screens": [{"name": "S", "controls": []}]}).tables
    for table in new.tables:
        source, own = source_of(olds, moves, table["name"])
        free = columns_of(table)
        for it, ty in (source.columns() if source else {}).items():
            fits = [name for name, other in free.items() if other == ty]
            if it != "ID" and fits and (dice.random() < 0.3 or free.get(own.get(it), ty) != ty):
                moves.append({"table": source.shape["name"], "column": it, "to": dice.choice(fits)})
                free.pop(moves[-1]["to"])
    dice.shuffle(moves)
    if dice.random() < 0.15:
        spoil(dice, moves)
    return moves


def spoil(dice, moves):
    """Adds a move at random, or makes one name something else."""
    if not moves or dice.random() < 0.5:
        more = {"table": dice.choice(TABLES), "to": dice.choice(TABLES)} if dice.random() < 0.5 else {"table": dice.choice(TABLES), "column": dice.choice("WXYZ"), "to": dice.choice("WXYZ")}
        moves.insert(dice.randint(0, len(moves)), more)
    else:
        move = dice.choice(moves)
        move[dice.choice(list(move))] = dice.choice([*TABLES, *COLUMNS, "ID", ""])


class Play:
    """A conversation with an office, and what the model answers."""

    def __init__(self, seed):
        self.dice = random.Random(seed)
        self.app = App(self.dice)
        self.first = self.app.file
        self.office, self.told, self.before, self.ends = Office(self.app.file), [], None, collections.Counter()

    def ask(self, method, path, body=None):
        reply = self.office.answer(method, path, body)[1]
        self.told.append(((method, path, body), body_of(reply)))
        return reply

    def following(self, callers, name):
        return callers[name].last + 1 if name in callers else 1

    def play(self, count=60):
        self.ask("PUT", "/s/a")
        self.ask("PUT", "/s/b")
        while len(self.told) < count:
            steps = [(24, self.replace), (3, self.repeat), (2, self.misshape), (18, self.change), (24, self.look), (16, self.act), (9, self.give), (2, self.edit), (2, self.come)]
            self.dice.choices([it for _, it in steps], [it for it, _ in steps])[0]()
        return self

    def replace(self):
        new = self.app if self.dice.random() < 0.1 else App(self.dice)
        seq = self.following(self.office.desks, "d") if self.dice.random() < 0.97 else self.dice.randint(1, 4)
        self.before = compact({"seq": seq, "app": new.file, "moves": moves_of(self.dice, self.app, new)})
        reply = self.ask("POST", "/desk/d/app", self.before)
        refusal = reply.get("refused", {})
        self.ends[refusal["detail"]["rule"] if refusal.get("code") == 27 else refusal.get("name", "accepted")] += 1
        if reply == {"seq": seq} and self.office.app.file == new.file:
            self.app = new

    def repeat(self):
        if self.before:
            self.ask("POST", "/desk/d/app", self.before)

    def misshape(self):
        """A body of another shape, or an app that breaks a rule: what the model doesn't judge."""
        seq, file, move = self.following(self.office.desks, "d"), self.app.file, {"table": "Ant", "to": "Bee"}
        shape = refused(10)[1]
        bodies = [({"seq": seq, "app": file}, shape), ({"seq": seq, "app": file, "moves": [], "more": 1}, shape), ({"seq": seq, "app": file, "moves": {}}, shape), ({"seq": 0, "app": file, "moves": []}, shape),
                  ({"seq": seq, "app": file, "moves": [move, {**move, "column": None}]}, shape), ({"seq": seq, "app": file, "moves": [{"table": "Ant"}]}, shape), ({"seq": seq, "app": file, "moves": [{**move, "at": "x"}]}, shape),
                  ({"seq": seq, "app": 1, "moves": [move]}, refused(24, ["App: E14 BadShape at 0: "])[1]), ({"seq": seq, "app": {**file, "formulas": "Bad = Nope;"}, "moves": [move]}, refused(24, ["Bad: E4 UnknownName at 0: Nope"])[1])]
        body, reply = self.dice.choice(bodies)
        self.told.append((("POST", "/desk/d/app", compact(body)), body_of(reply)))
        self.ends[reply["refused"]["name"]] += 1

    def change(self):
        seq, changes = self.following(self.office.desks, "d"), []
        for _ in range(self.dice.randint(1, 3)):
            table = self.dice.choice(self.app.tables)
            name, id = table["name"] if self.dice.random() < 0.97 else self.dice.choice(TABLES), self.dice.randint(1, 5)
            row = {it: self.value(ty) for it, ty in columns_of(table).items() if self.dice.random() < 0.85}
            changes.append(self.dice.choice([{"op": "add", "table": name, "row": row}] * 4 + [{"op": "change", "table": name, "id": id, "row": row}, {"op": "remove", "table": name, "id": id}]))
        self.ask("POST", "/desk/d/rows", compact({"seq": seq, "changes": changes}))

    def value(self, ty):
        values = {"Text": ["a", "bc", "abc", "", None, LONG, LONG], "Number": [0, 1, 2, 3, {"n": "2.5"}, None], "Boolean": [True, False, None]}
        return self.dice.choice(values[ty])

    def look(self):
        name = self.dice.choice("ab")
        self.ask("GET", self.dice.choice([f"/s/{name}/view"] * 3 + [f"/s/{name}/named"] * 2 + [f"/s/{name}/items/L{self.dice.randint(0, 1)}/1", f"/rows/{self.dice.choice(TABLES)}/0"]))

    def post(self, what, body):
        name = self.dice.choice("ab")
        self.ask("POST", f"/s/{name}/{what}", compact({"seq": self.following(self.office.sessions, name), **body}))

    def act(self):
        control = self.dice.choice([it for it in self.app.controls() if it[:2] in ("To", "Fi", "L0", "L1")] + ["ToHome", "FillOther"])
        item = {"item": {"at": self.dice.randint(1, 3)}} if control[0] == "L" and self.office.app.kind(control) == "Gallery" else {}
        self.post("event", {"control": control, "event": "OnSelect", **item})

    def give(self):
        self.post("input", {"control": f"I{self.dice.randint(0, 3)}", "value": self.dice.choice([0, 5, {"n": "2.5"}, True, False, "hello", "", None])})

    def edit(self):
        screen = self.dice.choice(self.app.names)
        text = f'"edited " & CountRows({self.dice.choice(self.app.tables)["name"]})'
        self.ask("POST", "/desk/d/edit", compact({"seq": self.following(self.office.desks, "d"), "cell": f"Show{screen}.Text", "text": text}))

    def come(self):
        self.ask(self.dice.choice(["PUT", "PUT", "DELETE"]), f"/s/{self.dice.choice('ab')}")


def replay(program, folder, play):
    """Returns the bodies that a replay answers, and its status."""
    asked = b"".join(bytes_of(*it) for it, _ in play.told)
    done = subprocess.run([program, "replay", app_in(folder, play.first)], input=asked, capture_output=True)
    return [it.split(b"\r\n\r\n", 1)[1].decode() for it in done.stdout.split(b"HTTP/1.1 ")[1:]], done.returncode


def app_in(folder, file):
    with open(f"{folder}/app.json", "w", encoding="utf-8") as out:
        json.dump(file, out, ensure_ascii=False)
    return f"{folder}/app.json"


def serve(program, folder, file, asked):
    """Returns the bodies that a server over the folder's database answers, each on a connection of its own, and its status."""
    port = free_port()
    # One connection more is that of `listen`.
    made = subprocess.Popen([program, "serve", app_in(folder, file), f"{folder}/rows.db", str(port), str(len(asked) + 1)], stderr=subprocess.DEVNULL)
    listen(port)
    told = []
    for method, path, body in asked:
        link = http.client.HTTPConnection("127.0.0.1", port)
        link.request(method, path, body and body.encode())
        told.append(link.getresponse().read().decode())
        link.close()
    return told, made.wait()


def serve_on(program, folder, play):
    """Returns what a server answers, and again what one that is started over the same database with the last app has in its tables."""
    told, status = serve(program, folder, play.first, [it for it, _ in play.told])
    last = {"format": "pfx-1", "tables": play.office.app.file["tables"], "screens": [{"name": "S", "controls": []}]}
    pages = [("GET", f"/rows/{it}/0", None) for it in TABLES]
    play.told += [(it, body_of(play.office.answer(*it)[1])) for it in pages]
    more, again = serve(program, folder, last, pages)
    old = [program, "serve", app_in(folder, play.first), f"{folder}/rows.db", str(free_port()), "1"]
    moved = {it["name"]: it["columns"] for it in play.first["tables"]} != {it["name"]: it["columns"] for it in last["tables"]}
    ended = subprocess.run(old, stderr=subprocess.DEVNULL).returncode if moved else 8
    return told + more, status or again or (0 if ended == 8 else f"{ended} with the old app")


def differs(program, seed, ends, answers):
    """Plays a seed, and prints the first reply that differs; returns the number of requests, or None."""
    play = Play(seed).play()
    ends.update(play.ends)
    with tempfile.TemporaryDirectory() as folder:
        told, status = answers(program, folder, play)
    for place, ((it, want), got) in enumerate(zip(play.told, told)):
        if got != want:
            print(f"seed {seed}, request {place + 1}: {it}\n got {got}\nwant {want}\n app {json.dumps(play.first, ensure_ascii=False)}")
            return None
    if status or len(told) != len(play.told):
        print(f"seed {seed}: status {status}, {len(told)} replies of {len(play.told)}\n app {json.dumps(play.first, ensure_ascii=False)}")
        return None
    return len(told)


def main():
    words = sys.argv[1:]
    program = words.pop(0) if words and not words[0].isdigit() else f"{sys.path[0]}/../pfx"
    first, last = (int(words[0]), int(words[1])) if words else (0, 500)
    answers = serve_on if words[2:] == ["served"] else replay
    ends = collections.Counter()
    counts = [differs(program, seed, ends, answers) for seed in range(first, last)]
    told = ", ".join(f"{name} {count}" for name, count in ends.most_common())
    print(f"{sum(it or 0 for it in counts)} requests of {len(counts)} apps, {sum(ends.values())} of them replacements ({told}); {counts.count(None)} apps differ")
    sys.exit(1 if None in counts else 0)


if __name__ == "__main__":
    main()
