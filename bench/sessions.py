#!/usr/bin/env python3
"""Plays random small apps against a plain model of sessions, and compares each reply byte for byte.

    bench/sessions.py [PFX] [FIRST LAST]

PFX is the built program, ./pfx where none is given. Each seed from FIRST up to but without LAST, 0 and 500 where none are given,
makes an app of up to six controls and six named formulas, and forty requests of two sessions: they are opened and ended, look
at their views, items and named formulas, give inputs and choose items, in turn and out of turn. The first replies that differ
are printed, and the status is then 1."""
import json
import random
import subprocess
import sys
import tempfile
from dataclasses import dataclass, field

ONE = 10_000
DIV0 = {"e": {"kind": "Div0", "message": ""}}
NAMES = {11: "NoSession", 13: "OutOfStep", 14: "SeqReused", 15: "NoControl", 16: "NoEvent", 17: "NotShown", 18: "NoItem", 19: "ItemMoved", 20: "BadInput"}
INPUTS = ("Slider", "Checkbox", "TextInput")


def text_of(units):
    """Returns a number's text, of its count of ten-thousandths."""
    whole, part = divmod(abs(units), ONE)
    return ("-" if units < 0 else "") + str(whole) + (f".{part:04d}".rstrip("0") if part else "")


def number_json(value):
    """Returns the JSON of a number, a blank one or an error."""
    if value is None or value == DIV0:
        return value
    return value // ONE if value % ONE == 0 else {"n": text_of(value)}


def text_json(value):
    """Returns the JSON of the same as a text."""
    return value if value is None or value == DIV0 else text_of(value)


def refused(code, detail=None):
    return {"refused": {"code": code, "detail": detail, "name": NAMES[code]}}


@dataclass
class Control:
    """A control with its formulas, and with what the model knows of them."""
    name: str
    kind: str
    screen: int
    formulas: dict
    gallery: object = None
    default: object = None
    bounds: tuple = (0, 100)
    visible: str = "true"
    rows: list = field(default_factory=list)
    count: object = None
    text: object = None


class App:
    """A random app: a screen or two, controls, and named formulas that are sums."""

    def __init__(self, dice):
        self.dice = dice
        self.screens = ["Home", "Other"][: dice.randint(1, 2)]
        self.controls = []
        for place in range(dice.randint(1, 6)):
            self.add(place)
        self.sums = [[self.part(before) for _ in range(dice.randint(1, 3))] for before in range(dice.randint(1, 6))]
        self.order = list(range(len(self.sums)))
        dice.shuffle(self.order)
        for control in self.controls:
            if control.kind in ("Label", "Button") and not control.gallery and dice.random() < 0.7:
                control.text = dice.choice(self.order)
                control.formulas["Text"] = f"F{control.text}"

    def of(self, *kinds):
        return [it for it in self.controls if it.kind in kinds and not it.gallery]

    def add(self, place):
        """Adds a control, and to a gallery one in its template."""
        dice = self.dice
        kind = dice.choice(["Slider", "Checkbox", "TextInput", "Gallery", "Gallery", "Label", "Button"])
        control = Control(f"C{place}", kind, dice.randrange(len(self.screens)), {})
        getattr(self, f"make_{kind.lower()}", lambda it: None)(control)
        control.visible = dice.choice(["true"] * 5 + ["false", "1 / 0 > 1", "Blank()"] + [f"{it.name}.Value" for it in self.of("Checkbox")])
        if control.visible != "true" or dice.random() < 0.5:
            control.formulas["Visible"] = control.visible
        self.controls.append(control)
        if kind == "Gallery":
            inside = Control(f"T{place}", dice.choice(["Label", "Button"]), control.screen, {}, gallery=control)
            inside.visible = dice.choice(["true", "ThisItem.Value > 1", "6 / ThisItem.Value > 2"])
            inside.formulas["Visible"] = inside.visible
            inside.text = dice.choice([None, "value"])
            if inside.text:
                inside.formulas["Text"] = "ThisItem.Value"
            self.controls.append(inside)

    def make_slider(self, control):
        control.bounds = (self.dice.randint(-3, 2), self.dice.randint(2, 9))
        control.default = self.dice.randint(-2, 12) * ONE
        control.formulas.update(Min=str(control.bounds[0]), Max=str(control.bounds[1]), Default=str(control.default // ONE))

    def make_checkbox(self, control):
        control.default = self.dice.random() < 0.5
        control.formulas["Default"] = "true" if control.default else "false"

    def make_textinput(self, control):
        control.default = self.dice.choice(["ab", "x y", "é"])
        control.formulas["Default"] = f'"{control.default}"'

    def make_gallery(self, control):
        has_ids = self.dice.random() < 0.5
        ids = self.dice.sample([7, 8, 9, 0, 4_294_967_295, 4_294_967_296], 4)
        control.rows = [(ids[it] if has_ids else None, self.dice.randint(0, 4)) for it in range(self.dice.randint(1, 4))]
        rows = ", ".join(f"{{ID: {id}, Value: {value}}}" if has_ids else f"{{Value: {value}}}" for id, value in control.rows)
        sliders = self.of("Slider")
        control.count = self.dice.choice(sliders) if sliders and self.dice.random() < 0.6 else None
        control.formulas["Items"] = f"FirstN([{rows}], {control.count.name}.Value)" if control.count else f"[{rows}]"

    def part(self, before):
        """Returns a part of a sum, with its formula: a number, an earlier sum, or what a control gives."""
        roll = self.dice.random()
        if roll < 0.3:
            return self.dice.randint(-5, 9)
        if roll < 0.5 and before:
            return f"F{self.dice.randrange(before)}"
        return self.dice.choice(self.controls)

    def source(self, part):
        if isinstance(part, int):
            return f"({part})"
        if isinstance(part, str):
            return part
        given = {"Slider": "{}.Value", "Checkbox": "6 / If({}.Value, 4, 0)", "TextInput": "Len({}.Text)", "Gallery": "{}.Selected.Value"}
        return given.get(part.kind, "7").format(part.name)

    def file(self):
        """Returns the app file."""
        formulas = " ".join(f"F{it} = {' + '.join(map(self.source, self.sums[it]))};" for it in self.order)
        screens = [{"name": name, "controls": []} for name in self.screens]
        for it in self.controls:
            inside = {"in": it.gallery.name} if it.gallery else {}
            screens[it.screen]["controls"].append({"name": it.name, "kind": it.kind, **inside, "properties": it.formulas})
        return json.dumps({"format": "pfx-1", "formulas": formulas, "screens": screens}, ensure_ascii=False)


class Session:
    """What a session gave and chose, and its last accepted request."""

    def __init__(self, app):
        self.app, self.inputs, self.chosen, self.last, self.body, self.reply = app, {}, {}, 0, None, None

    def input(self, control):
        return self.inputs.get(control.name, control.default)

    def rows(self, gallery):
        if gallery.count is None:
            return gallery.rows
        value = self.input(gallery.count)
        return gallery.rows[: max(0, value // ONE)]

    def selected(self, gallery):
        rows, chosen = self.rows(gallery), self.chosen.get(gallery.name)
        if chosen is None:
            row = rows[:1]
        elif chosen[1] is not None:
            row = [it for it in rows if it[0] == chosen[1]][:1]
        else:
            row = rows[chosen[0] - 1 : chosen[0]]
        return row[0][1] * ONE if row else None

    def part(self, part):
        if isinstance(part, int):
            return part * ONE
        if isinstance(part, str):
            return self.sum(int(part[1:]))
        if part.kind == "Slider":
            return self.input(part)
        if part.kind == "Checkbox":
            return 15_000 if self.input(part) else DIV0
        if part.kind == "TextInput":
            return len(self.input(part)) * ONE
        return self.selected(part) if part.kind == "Gallery" else 7 * ONE

    def sum(self, place):
        parts = [self.part(it) for it in self.app.sums[place]]
        if len(parts) == 1:
            return parts[0]
        return DIV0 if DIV0 in parts else sum(it or 0 for it in parts)

    def is_visible(self, control):
        if control.visible.startswith("C"):
            return self.input(next(it for it in self.app.controls if control.visible == f"{it.name}.Value"))
        return control.visible == "true"

    def is_shown(self, control):
        outer = control.gallery or control
        return outer.screen == 0 and self.is_visible(outer)

    def is_visible_for(self, control, value):
        if control.visible == "true":
            return True
        return value > 1 if control.visible == "ThisItem.Value > 1" else value in (1, 2)

    def items(self, gallery, start):
        rows = self.rows(gallery)
        return {"items": [self.item(gallery, at, *rows[at - 1]) for at in range(start, min(start + 99, len(rows)) + 1)], "total": len(rows)}

    def item(self, gallery, at, id, value):
        controls = [{"kind": it.kind, "name": it.name, "values": {"Text": str(value) if it.text else ""}} for it in self.app.controls
                    if it.gallery is gallery and self.is_visible_for(it, value)]
        return {"at": at, "controls": controls, "id": item_id(id)}

    def values(self, control):
        if control.kind == "Slider":
            return {"Max": control.bounds[1], "Min": control.bounds[0], "Value": number_json(self.input(control))}
        if control.kind == "Checkbox":
            return {"Text": "", "Value": self.input(control)}
        if control.kind == "TextInput":
            return {"Text": self.input(control)}
        return {"Text": "" if control.text is None else text_json(self.sum(control.text))}

    def view(self):
        controls = []
        for it in self.app.controls:
            if it.gallery or not self.is_shown(it):
                continue
            shown = self.items(it, 1) if it.kind == "Gallery" else {"values": self.values(it)}
            controls.append({"kind": it.kind, "name": it.name, **shown})
        return {"controls": controls, "screen": self.app.screens[0]}


def item_id(id):
    return id if id is not None and 1 <= id <= 4_294_967_295 else None


class Model:
    """The office, with its sessions by their names."""

    def __init__(self, app):
        self.app, self.sessions = app, {}

    def answer(self, what, name, *rest):
        if what == "PUT":
            self.sessions.setdefault(name, Session(self.app))
            return {"ok": True}
        if what == "DELETE":
            self.sessions.pop(name, None)
            return {"ok": True}
        session = self.sessions.get(name)
        if session is None:
            return refused(11)
        return getattr(self, what)(session, *rest)

    def view(self, session):
        return session.view()

    def named(self, session):
        return {"named": [{"name": f"F{it}", "value": number_json(session.sum(it))} for it in self.app.order]}

    def items(self, session, name, start):
        gallery = next((it for it in self.app.controls if it.name == name and it.kind == "Gallery"), None)
        if gallery is None:
            return refused(15)
        return session.items(gallery, max(start, 1)) if session.is_shown(gallery) else refused(17)

    def input(self, session, body):
        return self.post(session, body, self.take_input)

    def event(self, session, body):
        return self.post(session, body, self.take_event)

    def post(self, session, body, take):
        """Answers a numbered request; where it is accepted it is kept."""
        asked = json.loads(body)
        if session.last and asked["seq"] == session.last:
            return session.reply if body == session.body else refused(14)
        if asked["seq"] != session.last + 1:
            return refused(13, session.last)
        control = next((it for it in self.app.controls if it.name == asked["control"]), None)
        refusal = refused(15) if control is None else take(session, control, asked)
        if refusal:
            return refusal
        session.last, session.body, session.reply = asked["seq"], body, {"notices": [], "seq": asked["seq"], "value": None}
        return session.reply

    def take_input(self, session, control, asked):
        if control.kind not in INPUTS:
            return refused(16)
        if not session.is_shown(control):
            return refused(17)
        value = asked["value"]
        if value is None:
            session.inputs.pop(control.name, None)
            return None
        value = self.taken(control, value)
        if value is None:
            return refused(20)
        session.inputs[control.name] = value
        return None

    def taken(self, control, value):
        """Returns what a control takes of a value, or None."""
        if control.kind == "Checkbox":
            return value if isinstance(value, bool) else None
        if control.kind == "TextInput":
            return value if isinstance(value, str) and len(value.encode()) <= 4096 else None
        if isinstance(value, bool) or not isinstance(value, (int, dict)):
            return None
        units = value * ONE if isinstance(value, int) else round(float(value["n"]) * ONE)
        return units if control.bounds[0] * ONE <= units <= control.bounds[1] * ONE else None

    def take_event(self, session, control, asked):
        if asked["event"] != "OnSelect" or control.kind in INPUTS:
            return refused(16)
        if not session.is_shown(control):
            return refused(17)
        gallery, item = control.gallery or (control if control.kind == "Gallery" else None), asked.get("item")
        if (gallery is None) != (item is None):
            return refused(18)
        return self.choose(session, control, gallery, item) if gallery else None

    def choose(self, session, control, gallery, item):
        rows, at = session.rows(gallery), item["at"]
        if at > len(rows):
            return refused(18)
        id = item_id(rows[at - 1][0])
        if "id" in item and item["id"] != id:
            return refused(19, id)
        if control.gallery and not session.is_visible_for(control, rows[at - 1][1]):
            return refused(17)
        session.chosen[gallery.name] = (at, id)
        return None


def requests_of(app, dice, count=40):
    """Returns random requests of two sessions, most of them in turn."""
    asked, seqs, before = [("PUT", "a")], {"a": 1, "b": 1}, {}
    names = [it.name for it in app.controls] + ["Nope"]
    while len(asked) < count:
        name, roll = dice.choice("ab"), dice.random()
        if roll < 0.11:
            asked.append(("PUT" if roll < 0.08 else "DELETE", name))
            seqs[name] = 1 if roll >= 0.08 else seqs[name]
        elif roll < 0.4:
            asked.append(dice.choice([("view", name), ("view", name), ("named", name), ("items", name, dice.choice(names), dice.choice([0, 1, 2, 3, 9]))]))
        elif roll < 0.45 and name in before:
            asked.append(before[name])
        else:
            seq = seqs[name] if dice.random() < 0.85 else dice.randint(1, 4)
            before[name] = posted(dice, name, seq, dice.choice(names))
            asked.append(before[name])
            seqs[name] += dice.random() < 0.7
    return asked


def posted(dice, name, seq, control):
    """Returns a random input or event."""
    body = {"seq": seq, "control": control}
    if dice.random() < 0.5:
        body["value"] = dice.choice([None, True, False, "", "abc", "é" * 3, "é" * 2049, 0, 1, 3, -2, 50, {"n": "2.5"}, {"n": "1"}])
        what = "input"
    else:
        body["event"] = dice.choice(["OnSelect"] * 5 + ["OnChange"])
        if dice.random() < 0.6:
            body["item"] = dice.choice([{"at": dice.randint(1, 5)}, {"at": dice.randint(1, 4), "id": dice.choice([None, 7, 8, 9])}])
        what = "event"
    return what, name, json.dumps(body, separators=(",", ":"), ensure_ascii=False)


def bytes_of(what, name, *rest):
    """Returns a request as it is sent."""
    if what in ("PUT", "DELETE"):
        return f"{what} /s/{name} HTTP/1.1\r\n\r\n".encode()
    if what in ("view", "named"):
        return f"GET /s/{name}/{what} HTTP/1.1\r\n\r\n".encode()
    if what == "items":
        return f"GET /s/{name}/items/{rest[0]}/{rest[1]} HTTP/1.1\r\n\r\n".encode()
    body = rest[0].encode()
    return f"POST /s/{name}/{what} HTTP/1.1\r\nContent-Length: {len(body)}\r\n\r\n".encode() + body


def bodies_in(replies):
    return [it.split(b"\r\n\r\n", 1)[1] for it in replies.split(b"HTTP/1.1 ")[1:]]


def differs(program, seed):
    """Plays the app of a seed, and prints the first reply that differs; returns the number of requests, or None."""
    dice = random.Random(seed)
    app = App(dice)
    asked = requests_of(app, dice)
    with tempfile.NamedTemporaryFile("w", suffix=".json", encoding="utf-8") as file:
        file.write(app.file())
        file.flush()
        done = subprocess.run([program, "replay", file.name], input=b"".join(bytes_of(*it) for it in asked), capture_output=True)
    model = Model(app)
    wanted = [json.dumps(model.answer(*it), sort_keys=True, separators=(",", ":"), ensure_ascii=False).encode() for it in asked]
    told = bodies_in(done.stdout)
    for it, got, want in zip(asked, told, wanted):
        if got != want:
            print(f"seed {seed}: {it}\n got {got.decode()}\nwant {want.decode()}\n app {app.file()}")
            return None
    if done.returncode or len(told) != len(wanted):
        print(f"seed {seed}: status {done.returncode}, {len(told)} replies of {len(wanted)}: {done.stderr.decode()}\n app {app.file()}")
        return None
    return len(asked)


def main():
    words = sys.argv[1:]
    program = words.pop(0) if words and not words[0].isdigit() else f"{sys.path[0]}/../pfx"
    first, last = (int(words[0]), int(words[1])) if words else (0, 500)
    counts = [differs(program, seed) for seed in range(first, last)]
    print(f"{sum(it or 0 for it in counts)} requests of {len(counts)} apps; {counts.count(None)} apps differ")
    sys.exit(1 if None in counts else 0)


if __name__ == "__main__":
    main()
