"""A plain model of an office: apps whose formulas act, played by the words of the reference and with no regard to cost.

A formula is parsed and made into a function of the state. Types are known, as they decide what branches have in common, what a
collection's rows hold and which variables an edit makes blank. What is wrong with an app is not judged: it takes accepted apps."""
import copy
import datetime
import json
import re

ONE = 10_000
MOST = 2**63 - 1
HEAVIEST = 4_194_304
LONGEST = 65_536
STATUS = {7: 404, 8: 405, 9: 400, 10: 400, 11: 404, 12: 429, 13: 409, 14: 409, 15: 404, 16: 409, 17: 409, 18: 409, 19: 409, 20: 422, 21: 404,
          22: 404, 23: 422, 24: 422, 25: 503, 26: 507, 27: 422}
NAMES = {9: "BadJson", 10: "BadShape", 11: "NoSession", 12: "TooManyCallers", 13: "OutOfStep", 14: "SeqReused", 15: "NoControl", 16: "NoEvent",
         17: "NotShown", 18: "NoItem", 19: "ItemMoved", 20: "BadInput", 21: "NoTable", 22: "NoRow", 23: "RowRefused",
         24: "EditRefused", 25: "KeeperFault", 27: "MoveRefused"}
INPUTS = {"TextInput": ("Text", "Default", "Text"), "Slider": ("Value", "Default", "Number"),
          "Checkbox": ("Value", "Default", "Boolean"), "DatePicker": ("SelectedDate", "DefaultDate", "Date")}
PROPERTIES = {"Label": [("Text", "Text")], "Button": [("Text", "Text")], "TextInput": [("Default", "Text")],
              "Slider": [("Min", "Number"), ("Max", "Number"), ("Default", "Number")],
              "Checkbox": [("Text", "Text"), ("Default", "Boolean")], "DatePicker": [("DefaultDate", "Date")], "Gallery": [("Items", "Table")]}
BEHAVIOUR = {"Label": ["OnSelect"], "Button": ["OnSelect"], "TextInput": ["OnChange"], "Slider": ["OnChange"],
             "Checkbox": ["OnCheck", "OnUncheck"], "DatePicker": ["OnChange"], "Gallery": ["OnSelect"]}
MISSING = {"Text": "", "Min": 0, "Max": 100 * ONE, "Default": None, "DefaultDate": None, "Items": [], "Visible": True}


class Err:
    """An error as a value."""

    def __init__(self, kind, message=""):
        self.kind, self.message = kind, message

    def __eq__(self, other):
        return isinstance(other, Err) and (self.kind, self.message) == (other.kind, other.message)

    def __repr__(self):
        return f"Err({self.kind}, {self.message})"


class Day:
    def __init__(self, days):
        self.days = days

    def __eq__(self, other):
        return isinstance(other, Day) and self.days == other.days

    def __str__(self):
        return (datetime.date(1970, 1, 1) + datetime.timedelta(self.days)).isoformat()


def is_number(value):
    return type(value) is int


# ---- texts, numbers, JSON

def text_of(units):
    whole, part = divmod(abs(units), ONE)
    return ("-" if units < 0 else "") + str(whole) + (f".{part:04d}".rstrip("0") if part else "")


def rounded(top, bottom):
    """The quotient, rounded half away from zero."""
    sign = -1 if (top < 0) != (bottom < 0) else 1
    return sign * ((2 * abs(top) + abs(bottom)) // (2 * abs(bottom)))


def in_range(units):
    return units if -MOST <= units <= MOST else Err("Numeric")


def read(text):
    found = re.fullmatch(r" *([+-]?)(\d+)(?:\.(\d+))? *", text)
    if not found:
        return None
    sign, whole, part = found.groups()
    digits = int(whole + (part or ""))
    units = rounded(digits * ONE, 10 ** len(part or ""))
    return None if units > MOST else -units if sign == "-" else units


def value_json(value):
    if value is None or isinstance(value, (bool, str)):
        return value
    if is_number(value):
        return value // ONE if value % ONE == 0 else {"n": text_of(value)}
    if isinstance(value, Day):
        return {"d": str(value)}
    if isinstance(value, Err):
        return {"e": {"kind": value.kind, "message": value.message}}
    if isinstance(value, dict):
        return {"r": row_json(value)}
    return [row_json(row) for row in value]


def row_json(row):
    return {name: value_json(value) for name, value in row.items()}


def weigh(value):
    """Sixteen for each part, and the bytes of texts and names."""
    if isinstance(value, str):
        return 16 + len(value.encode())
    if isinstance(value, Err):
        return 16 + len(value.message.encode())
    if isinstance(value, dict):
        return 16 + sum(len(name.encode()) + weigh(part) for name, part in value.items())
    if isinstance(value, list):
        return 16 + sum(weigh(row) for row in value)
    return 16


# ---- types: "Blank", "Number", .., ("Record", columns), ("Table", columns)

def join(a, b):
    """The common type, or None."""
    if a == "Blank" or a == b:
        return b
    if b == "Blank":
        return a
    if isinstance(a, str) or isinstance(b, str) or a[0] != b[0]:
        return None
    columns = dict(a[1])
    for name, one in b[1].items():
        columns[name] = join(columns.get(name, "Blank"), one)
        if columns[name] is None:
            return None
    return (a[0], columns)


def common(types, acts):
    """The common type of branches."""
    if all(isinstance(it, str) for it in types) and "Text" in types:
        return "Text"
    joined = "Blank"
    for one in types:
        joined = None if joined is None else join(joined, one)
    if joined is None and acts:
        return "Blank"
    assert joined is not None, types
    return joined


def coerce(value, to):
    """A value of one type as one of another."""
    if value is None or isinstance(value, Err):
        return value
    if to == "Blank":
        return None
    if to == "Text":
        return text_in(value)
    if to == "Number":
        return number_in(value)
    if to == "Boolean":
        return value != 0 if is_number(value) else value
    if isinstance(to, tuple) and to[0] == "Record":
        return widened(value, to[1])
    if isinstance(to, tuple):
        return [widened(row, to[1]) for row in value]
    return value


def widened(row, columns):
    return {name: coerce(row.get(name), one) if isinstance(one, tuple) else row.get(name) for name, one in columns.items()}


def text_in(value):
    if value is None:
        return ""
    if isinstance(value, bool):
        return "true" if value else "false"
    return text_of(value) if is_number(value) else str(value)


def number_in(value):
    if value is None:
        return None
    if isinstance(value, bool):
        return ONE if value else 0
    if isinstance(value, str):
        if not value.strip(" "):
            return None
        units = read(value)
        return Err("InvalidArgument") if units is None else units
    return value


def made(text):
    """A text that a formula makes."""
    return text if len(text.encode()) <= LONGEST else Err("QuotaExceeded")


# ---- formulas

TOKEN = re.compile(r"""\s+|//[^\n]*|/\*.*?\*/
    |(?P<number>\d+(?:\.\d+)?)|(?P<text>"(?:[^"]|"")*")|(?P<quoted>'(?:[^']|'')+')
    |(?P<name>[A-Za-z_\u0080-\U0010ffff][A-Za-z0-9_\u0080-\U0010ffff]*)
    |(?P<symbol>\[@|&&|\|\||<>|<=|>=|[(){}\[\],;:.+\-*/^%&!=<>])""", re.X | re.S)
WORDS = {"And", "Or", "Not", "in", "exactin", "As", "true", "false"}


def tokens(text):
    at, found = 0, []
    while at < len(text):
        it = TOKEN.match(text, at)
        assert it, text[at:]
        if it.lastgroup == "quoted":
            found.append(("name", it.group()[1:-1].replace("''", "'")))
        elif it.lastgroup:
            kind = "word" if it.lastgroup == "name" and it.group() in WORDS else it.lastgroup
            found.append((kind, it.group()))
        at = it.end()
    return found + [("end", "")]


class Parser:
    """Reads a formula by the grammar: a node is a tuple of its kind and its parts."""

    LEVELS = [({"||": "Or", "Or": "Or"}, True), ({"&&": "And", "And": "And"}, True), ({"in": "in", "exactin": "exactin"}, False),
              ({it: it for it in ("=", "<>", "<", "<=", ">", ">=")}, False), ({"&": "&"}, True), ({"+": "+", "-": "-"}, False),
              ({"*": "*", "/": "/"}, False)]

    def __init__(self, text):
        self.tokens, self.at = tokens(text), 0

    def peek(self):
        return self.tokens[self.at][1] if self.tokens[self.at][0] in ("symbol", "word") else None

    def take(self, *wanted):
        if self.peek() in wanted:
            self.at += 1
            return self.tokens[self.at - 1][1]
        return None

    def need(self, wanted):
        assert self.take(wanted), (wanted, self.tokens[self.at:])

    def name(self):
        kind, text = self.tokens[self.at]
        assert kind == "name", self.tokens[self.at:]
        self.at += 1
        return text

    def chain(self):
        parts = [self.level(0)]
        while self.take(";"):
            if self.peek() in (")", ",", "}", "]") or self.tokens[self.at][0] == "end":
                break
            parts.append(self.level(0))
        return parts[0] if len(parts) == 1 else ("chain", parts)

    def level(self, at):
        if at == len(self.LEVELS):
            return self.alias()
        signs, joins = self.LEVELS[at]
        left = self.level(at + 1)
        parts = [left]
        while True:
            sign = self.take(*signs)
            if not sign:
                break
            right = self.level(at + 1)
            if joins:
                parts.append(right)
            else:
                left = ("pair", signs[sign], left, right)
        if joins and len(parts) > 1:
            return ("many", list(signs.values())[0], parts)
        return left

    def alias(self):
        part = self.prefix()
        return ("as", part, self.name()) if self.take("As") else part

    def prefix(self):
        sign = self.take("-", "!", "Not")
        if sign:
            return ("not" if sign != "-" else "neg", self.prefix())
        part = self.access()
        while self.take("%"):
            part = ("pair", "/", part, ("value", 100 * ONE, "Number"))
        return part

    def access(self):
        part = self.atom()
        while self.take("."):
            part = ("dot", part, self.name())
        return part

    def atom(self):
        kind, text = self.tokens[self.at]
        if kind == "symbol" and text == "[@":
            self.at += 1
            name = self.name()
            self.need("]")
            return ("global", name)
        self.at += 1
        if kind == "number":
            return ("value", read(text), "Number")
        if kind == "text":
            return ("value", text[1:-1].replace('""', '"'), "Text")
        if text in ("true", "false") and kind == "word":
            return ("value", text == "true", "Boolean")
        if kind == "name" or (kind == "word" and text in ("And", "Or")):
            if self.take("("):
                args = self.args(")")
                return ("many", text, args) if kind == "word" else ("call", text, args)
            return ("name", text)
        if text == "(":
            part = self.chain()
            self.need(")")
            return part
        if text == "[":
            return ("list", self.args("]"))
        assert text == "{", self.tokens[self.at - 1:]
        fields = []
        while not self.take("}"):
            name = self.name()
            self.need(":")
            fields.append((name, self.level(0)))
            self.take(",")
        return ("record", fields)

    def args(self, end):
        args = []
        while not self.take(end):
            args.append(self.chain())
            self.take(",")
        return args


def parse(text):
    text = text.strip()
    parser = Parser(text[1:] if text.startswith("=") else text)
    tree = parser.chain()
    assert parser.tokens[parser.at][0] == "end", (text, parser.tokens[parser.at:])
    return tree


def parse_named(text):
    """The named formulas of a text, in its order."""
    parser, named = Parser(text), []
    while parser.tokens[parser.at][0] != "end":
        name = parser.name()
        parser.need("=")
        named.append((name, parser.level(0)))
        parser.take(";")
    return named


# ---- what formulas mean

class Node:
    """A typed formula: `run(state, scope)` is its value, and does what it does."""

    def __init__(self, ty, run, acts=False):
        self.ty, self.run, self.acts = ty, run, acts


class Scope:
    def __init__(self, rows=(), item=None, caught=None):
        self.rows, self.item, self.caught = tuple(rows), item, caught

    def within(self, row):
        return Scope(self.rows + (row,), self.item, self.caught)

    def catching(self, caught):
        return Scope(self.rows, self.item, caught)


class Place:
    """Where a formula stands: its screen, the type of its item, and the types and aliases of the row scopes around."""

    def __init__(self, screen, item, scopes=(), caught=False):
        self.screen, self.item, self.scopes, self.caught = screen, item, tuple(scopes), caught

    def within(self, columns, alias=None):
        return Place(self.screen, self.item, self.scopes + ((columns, alias),), self.caught)


def columns_of(ty):
    return ty[1] if isinstance(ty, tuple) else {}


def first_error(values):
    return next((it for it in values if isinstance(it, Err)), None)


def field(value, name):
    return value if value is None or isinstance(value, Err) else value.get(name)


class Typer:
    """Makes formulas of one app into nodes, under the types of its names as they are known."""

    def __init__(self, app):
        self.app = app

    def node(self, tree, place, whole=False):
        made = getattr(self, "of_" + tree[0])(tree, place)
        if not whole and tree[0] in ("name", "global", "call") and self.is_query(tree, place):
            limit, run = self.app.limit, made.run
            return Node(made.ty, lambda st, sc: cut(run(st, sc), limit), made.acts)
        return made

    # -- names and literals

    def of_value(self, tree, place):
        return Node(tree[2], lambda st, sc: tree[1])

    def of_name(self, tree, place):
        name = tree[1]
        for depth in reversed(range(len(place.scopes))):
            columns, alias = place.scopes[depth]
            if alias is None and name in columns:
                return Node(columns[name], lambda st, sc: field(sc.rows[depth], name))
            if alias == name:
                return Node(("Record", columns), lambda st, sc: sc.rows[depth])
        if name == "ThisRecord":
            depth = max(it for it in range(len(place.scopes)) if place.scopes[it][1] is None)
            return Node(("Record", place.scopes[depth][0]), lambda st, sc: sc.rows[depth])
        if name == "ThisItem":
            return Node(("Record", place.item or {}), lambda st, sc: sc.item)
        if name == "FirstError":
            return Node(("Record", {"Kind": "Text", "Message": "Text"}), lambda st, sc: {"Kind": sc.caught.kind, "Message": sc.caught.message})
        key = (place.screen, name)
        if key in self.app.context:
            return Node(self.app.context[key], lambda st, sc: st.session.context.get(key))
        return self.of_global(("global", name), place)

    def of_global(self, tree, place):
        name, app = tree[1], self.app
        if name in app.tables:
            return Node(("Table", app.tables[name].columns()), lambda st, sc: [dict(row) for row in st.tables[name].rows])
        if name in app.named:
            return Node(app.named_types.get(name, "Blank"), lambda st, sc: st.named(name))
        if name in app.globals:
            return Node(app.globals[name], lambda st, sc: st.session.globals.get(name))
        if name in app.gathered:
            if app.gathered[name] is None:
                return Node("Blank", lambda st, sc: None)
            return Node(("Table", app.gathered[name]), lambda st, sc: [dict(row) for row in st.session.gathered.get(name, [])])
        raise NameError(name)

    def of_dot(self, tree, place):
        part, name = tree[1], tree[2]
        if part[0] == "name" and part[1] in ("SortOrder", "TimeUnit", "ErrorKind"):
            return Node("Text", lambda st, sc: name)
        if part[0] == "name" and part[1] in self.app.controls and not self.is_bound(part[1], place):
            return self.of_control(self.app.controls[part[1]], name)
        left = self.node(part, place)
        return Node(columns_of(left.ty).get(name, "Blank"), lambda st, sc: field(left.run(st, sc), name), left.acts)

    def is_bound(self, name, place):
        return any((alias is None and name in columns) or alias == name for columns, alias in place.scopes)

    def of_control(self, control, name):
        kind = control["kind"]
        if kind in INPUTS and name == INPUTS[kind][0]:
            return Node(INPUTS[kind][2], lambda st, sc: st.input(control))
        if kind == "Gallery" and name == "Selected":
            return Node(("Record", self.app.item_columns(control["name"])), lambda st, sc: st.selected(control))
        ty = "Boolean" if name == "Visible" else dict(PROPERTIES[kind])[name]
        return Node(ty, lambda st, sc: st.property(control, name))

    def of_record(self, tree, place):
        parts = [(name, self.node(part, place)) for name, part in tree[1]]
        order = [(name, part) for name, part in parts]
        return Node(("Record", {name: part.ty for name, part in order}), lambda st, sc: {name: part.run(st, sc) for name, part in order})

    def of_list(self, tree, place):
        parts = [self.node(part, place) for part in tree[1]]
        joined = "Blank"
        for part in parts:
            joined = join(joined, part.ty)
        is_record = isinstance(joined, tuple)
        columns = joined[1] if is_record else {"Value": joined}

        def run(st, sc):
            values = [part.run(st, sc) for part in parts]
            error = first_error(values)
            if error:
                return error
            return [widened(it if it is not None else {}, columns) if is_record else {"Value": it} for it in values]
        return Node(("Table", columns), run)

    def of_chain(self, tree, place):
        parts = [self.node(part, place) for part in tree[1]]

        def run(st, sc):
            for part in parts:
                value = part.run(st, sc)
            return value
        return Node(parts[-1].ty, run, True)

    # -- operators

    def strict(self, ty, parts, function):
        """A node that is the first error among its parts, or the function of their values."""
        def run(st, sc):
            values = [part.run(st, sc) for part in parts]
            return first_error(values) or function(*values)
        return Node(ty, run)

    def of_pair(self, tree, place):
        sign, left, right = tree[1], self.node(tree[2], place), self.node(tree[3], place)
        if sign in OPERATORS:
            parts = [self.to(part, "Number") for part in (left, right)]
            return self.strict("Number", parts, lambda a, b: OPERATORS[sign](a or 0, b or 0))
        if sign == "in":
            return self.strict("Boolean", [self.to(left, "Text"), self.to(right, "Text")], lambda a, b: (a or "").casefold() in (b or "").casefold())
        if sign == "exactin":
            return self.strict("Boolean", [self.to(left, "Text"), self.to(right, "Text")], lambda a, b: (a or "") in (b or ""))
        return self.strict("Boolean", [left, right], lambda a, b: holds(sign, a, b))

    def of_neg(self, tree, place):
        return self.strict("Number", [self.to(self.node(tree[1], place), "Number")], lambda a: -(a or 0))

    def of_not(self, tree, place):
        return self.strict("Boolean", [self.to(self.node(tree[1], place), "Boolean")], lambda a: not a)

    def of_many(self, tree, place):
        sign = tree[1]
        if sign == "&":
            parts = [self.to(self.node(part, place), "Text") for part in tree[2]]
            return self.strict("Text", parts, lambda *texts: made("".join(it or "" for it in texts)))
        parts = [self.to(self.node(part, place), "Boolean") for part in tree[2]]

        def run(st, sc):
            for part in parts:
                value = part.run(st, sc)
                if isinstance(value, Err):
                    return value
                if bool(value) == (sign == "Or"):
                    return sign == "Or"
            return sign == "And"
        return Node("Boolean", run)

    def to(self, node, ty):
        """The node as one of a type."""
        return Node(ty, lambda st, sc: coerce(node.run(st, sc), ty), node.acts)

    # -- calls

    def of_call(self, tree, place):
        name, args = tree[1], tree[2]
        if hasattr(self, "call_" + name):
            return getattr(self, "call_" + name)(args, place)
        takes, gives, function = SCALAR[name]
        parts = [self.node(part, place) for part in args]
        wanted = [takes[min(at, len(takes) - 1)] for at in range(len(parts))]
        return self.strict(gives, [part if want is None else self.to(part, want) for part, want in zip(parts, wanted)], function)

    def branches(self, parts):
        """The parts as ones of their common type."""
        ty = common([part.ty for part in parts], any(part.acts for part in parts))
        return ty, [self.to(part, ty) for part in parts], any(part.acts for part in parts)

    def call_If(self, args, place):
        tests = [self.to(self.node(it, place), "Boolean") for it in args[: len(args) // 2 * 2 : 2]]
        ty, results, acts = self.branches([self.node(it, place) for it in args[1::2] + (args[-1:] if len(args) % 2 else [])])

        def run(st, sc):
            for test, result in zip(tests, results):
                value = test.run(st, sc)
                if isinstance(value, Err):
                    return value
                if value:
                    return result.run(st, sc)
            return results[-1].run(st, sc) if len(results) > len(tests) else None
        return Node(ty, run, acts)

    def call_Switch(self, args, place):
        subject, rest = self.node(args[0], place), args[1:]
        tests = [self.node(it, place) for it in rest[: len(rest) // 2 * 2 : 2]]
        ty, results, acts = self.branches([self.node(it, place) for it in rest[1::2] + (rest[-1:] if len(rest) % 2 else [])])

        def run(st, sc):
            value = subject.run(st, sc)
            if isinstance(value, Err):
                return value
            for test, result in zip(tests, results):
                other = test.run(st, sc)
                if isinstance(other, Err):
                    return other
                if value == other and type(value) is type(other):
                    return result.run(st, sc)
            return results[-1].run(st, sc) if len(results) > len(tests) else None
        return Node(ty, run, acts)

    def call_IfError(self, args, place):
        nodes = []
        for at, part in enumerate(args):
            falls = at % 2 == 1
            nodes.append(self.node(part, Place(place.screen, place.item, place.scopes, True) if falls else place))
        ty, parts, acts = self.branches(nodes)

        def run(st, sc):
            value = None
            for at in range(0, len(parts), 2):
                value = parts[at].run(st, sc)
                if at + 1 < len(parts) and isinstance(value, Err):
                    return parts[at + 1].run(st, sc.catching(value))
            return value
        return Node(ty, run, acts)

    def call_IsError(self, args, place):
        part = self.node(args[0], place)
        return Node("Boolean", lambda st, sc: isinstance(part.run(st, sc), Err))

    def call_IsBlank(self, args, place):
        return self.strict("Boolean", [self.node(args[0], place)], lambda a: a is None or a == "")

    def call_Coalesce(self, args, place):
        ty, parts, acts = self.branches([self.node(it, place) for it in args])

        def run(st, sc):
            for part in parts:
                value = part.run(st, sc)
                if value is not None and value != "":
                    return value
            return None
        return Node(ty, run, acts)

    def call_Error(self, args, place):
        def error(row):
            kind = text_in(row.get("Kind")) if row else ""
            return Err(kind if kind in KINDS else "Custom", text_in(row.get("Message")) if row else "")
        return self.strict("Blank", [self.node(args[0], place)], error)

    def call_Today(self, args, place):
        return Node("Date", lambda st, sc: st.today())

    def call_Table(self, args, place):
        return self.of_list(("list", args), place)

    # -- tables

    def table(self, tree, place, whole=False):
        """A table argument with its columns and its alias."""
        alias = None
        if tree[0] == "as":
            alias, tree = tree[2], tree[1]
        node = self.node(tree, place, whole)
        return node, columns_of(node.ty), alias

    def filtered(self, args, place, whole):
        table, columns, alias = self.table(args[0], place, whole)
        inner = place.within(columns, alias)
        tests = [self.to(self.node(it, inner), "Boolean") for it in args[1:]]

        def run(st, sc):
            rows = table.run(st, sc)
            if isinstance(rows, Err):
                return rows
            kept, error = [], None
            for row in rows or []:
                values = [test.run(st, sc.within(row)) for test in tests]
                error = error or first_error(values)
                if all(values):
                    kept.append(row)
            return error or kept
        return Node(("Table", columns), run)

    def call_Filter(self, args, place):
        return self.filtered(args, place, self.is_query(("call", "Filter", args), place))

    def call_LookUp(self, args, place):
        kept = self.filtered(args[:2], place, self.is_query(("call", "Filter", args[:2]), place))
        columns = columns_of(kept.ty)
        alias = args[0][2] if args[0][0] == "as" else None
        form = self.node(args[2], place.within(columns, alias)) if len(args) > 2 else None

        def run(st, sc):
            rows = kept.run(st, sc)
            if isinstance(rows, Err):
                return rows
            if not rows:
                return None
            return form.run(st, sc.within(rows[0])) if form else rows[0]
        return Node(form.ty if form else ("Record", columns), run)

    def call_Sort(self, args, place):
        whole = self.is_query(("call", "Sort", args), place)
        table, columns, alias = self.table(args[0], place, whole)
        key = self.node(args[1], place.within(columns, alias))
        falls = len(args) > 2 and args[2][-1] in ("Descending",)

        def run(st, sc):
            rows = table.run(st, sc)
            if isinstance(rows, Err):
                return rows
            keys = [key.run(st, sc.within(row)) for row in rows or []]
            error = first_error(keys)
            if error:
                return error
            order = sorted(range(len(keys)), key=lambda at: rank(keys[at]), reverse=falls)
            if falls:  # equal keys keep their order
                order = sorted(range(len(keys)), key=lambda at: rank(keys[at]))
                groups = {}
                for at in order:
                    groups.setdefault(rank(keys[at]), []).append(at)
                order = [at for one in reversed(list(groups)) for at in groups[one]]
            return [rows[at] for at in order]
        return Node(("Table", columns), run)

    def of_rows(self, args, place, function, ty=None, whole=False):
        table, columns, _ = self.table(args[0], place, whole and self.is_query(self.bare(args[0]), place))
        more = [self.to(self.node(it, place), "Number") for it in args[1:]]

        def run(st, sc):
            values = [table.run(st, sc)] + [it.run(st, sc) for it in more]
            error = first_error(values)
            return error or function(values[0] or [], *values[1:])
        return Node(ty or ("Table", columns), run)

    def bare(self, tree):
        return tree[1] if tree[0] == "as" else tree

    def call_First(self, args, place):
        columns = self.table(args[0], place)[1]
        return self.of_rows(args, place, lambda rows: rows[0] if rows else None, ("Record", columns), True)

    def call_Last(self, args, place):
        columns = self.table(args[0], place)[1]
        return self.of_rows(args, place, lambda rows: rows[-1] if rows else None, ("Record", columns))

    def call_FirstN(self, args, place):
        return self.of_rows(args, place, lambda rows, n=ONE: rows[: max(0, int((n or 0) / ONE))])

    def call_LastN(self, args, place):
        return self.of_rows(args, place, lambda rows, n=ONE: rows[max(0, len(rows) - max(0, int((n or 0) / ONE))):])

    def call_CountRows(self, args, place):
        return self.of_rows(args, place, lambda rows: len(rows) * ONE, "Number", True)

    def call_IsEmpty(self, args, place):
        return self.of_rows(args, place, lambda rows: not rows, "Boolean")

    def call_CountIf(self, args, place):
        kept = self.filtered(args, place, False)
        return self.strict("Number", [kept], lambda rows: len(rows) * ONE)

    def total(self, name, args, place):
        if len(args) < 2 or not isinstance(self.table(args[0], place, True)[0].ty, tuple):
            parts = [self.to(self.node(it, place), "Number") for it in args]
            return self.strict("Number", parts, lambda *values: total_of(name, values))
        plain = args[1][0] == "name" and self.is_query(self.bare(args[0]), place)
        table, columns, alias = self.table(args[0], place, plain)
        form = self.to(self.node(args[1], place.within(columns, alias)), "Number")

        def run(st, sc):
            rows = table.run(st, sc)
            if isinstance(rows, Err):
                return rows
            values = [form.run(st, sc.within(row)) for row in rows or []]
            return first_error(values) or total_of(name, values)
        return Node("Number", run)

    def call_Sum(self, args, place):
        return self.total("Sum", args, place)

    def call_Min(self, args, place):
        return self.total("Min", args, place)

    def call_Max(self, args, place):
        return self.total("Max", args, place)

    def call_Concat(self, args, place):
        table, columns, alias = self.table(args[0], place)
        form = self.to(self.node(args[1], place.within(columns, alias)), "Text")
        between = self.to(self.node(args[2], place), "Text") if len(args) > 2 else None

        def run(st, sc):
            rows = table.run(st, sc)
            if isinstance(rows, Err):
                return rows
            texts = [form.run(st, sc.within(row)) for row in rows or []]
            last = between.run(st, sc) if between else ""
            return first_error(texts + [last]) or made((last or "").join(it or "" for it in texts))
        return Node("Text", run)

    def call_ForAll(self, args, place):
        table, columns, alias = self.table(args[0], place)
        form = self.node(args[1], place.within(columns, alias))
        is_record = isinstance(form.ty, tuple)

        def run(st, sc):
            rows = table.run(st, sc)
            if isinstance(rows, Err):
                return rows
            values = [form.run(st, sc.within(row)) for row in rows or []]
            return first_error(values) or [it if is_record else {"Value": it} for it in values if it is not None]
        return Node(("Table", form.ty[1] if is_record else {"Value": form.ty}), run, form.acts)

    def call_With(self, args, place):
        record = self.node(args[0], place)
        form = self.node(args[1], place.within(columns_of(record.ty)))

        def run(st, sc):
            row = record.run(st, sc)
            return row if isinstance(row, Err) else form.run(st, sc.within(row))
        return Node(form.ty, run, form.acts)

    def call_AddColumns(self, args, place):
        table, columns, alias = self.table(args[0], place)
        inner = place.within(columns, alias)
        added = [(args[at][1], self.node(args[at + 1], inner)) for at in range(1, len(args), 2)]

        def run(st, sc):
            rows = table.run(st, sc)
            return rows if isinstance(rows, Err) else [{**row, **{name: it.run(st, sc.within(row)) for name, it in added}} for row in rows or []]
        return Node(("Table", {**columns, **{name: it.ty for name, it in added}}), run)

    def call_Defaults(self, args, place):
        columns = self.target(args[0])[2]
        return Node(("Record", columns), lambda st, sc: {name: None for name in columns})

    # -- query expressions

    def is_query(self, tree, place):
        """Whether a formula is a table, filters of one by what the keeper can test, or one sort of these by a column."""
        if tree[0] in ("name", "global"):
            return tree[1] in self.app.tables and not (tree[0] == "name" and self.is_name_bound(tree[1], place))
        if tree[0] != "call" or tree[1] not in ("Filter", "Sort") or not self.is_query(self.bare(tree[2][0]), place):
            return False
        args, columns = tree[2], self.columns_in(tree)
        if tree[1] == "Sort":
            return not self.sorts(self.bare(args[0])) and args[1][0] == "name" and args[1][1] in columns
        inner = place.within(columns, args[0][2] if args[0][0] == "as" else None)
        return all(self.is_delegable(it, columns, inner) for it in args[1:])

    def is_name_bound(self, name, place):
        return self.is_bound(name, place) or (place.screen, name) in self.app.context

    def columns_in(self, tree):
        while tree[0] == "call":
            tree = self.bare(tree[2][0])
        return self.app.tables[tree[1]].columns()

    def sorts(self, tree):
        return tree[0] == "call" and (tree[1] == "Sort" or self.sorts(self.bare(tree[2][0])))

    def is_delegable(self, tree, columns, place):
        """Whether the keeper can test a condition, which stands in the scope of its row."""
        def column(it, ty=None):
            return it[0] == "name" and it[1] in columns and place.scopes[-1][1] is None and (ty is None or columns[it[1]] == ty)

        def constant(it):
            return not self.reads_row(it, place, len(place.scopes) - 1)
        if constant(tree) or column(tree, "Boolean"):
            return True
        if tree[0] == "not":
            return self.is_delegable(tree[1], columns, place)
        if tree[0] == "many" and tree[1] in ("And", "Or"):
            return all(self.is_delegable(it, columns, place) for it in tree[2])
        if tree[0] == "pair" and tree[1] in ("=", "<>", "<", "<=", ">", ">="):
            return (column(tree[2]) and constant(tree[3])) or (constant(tree[2]) and column(tree[3]))
        if tree[0] == "pair" and tree[1] == "in":
            return constant(tree[2]) and column(tree[3], "Text")
        if tree[0] == "call" and tree[1] == "IsBlank":
            return column(tree[2][0])
        return tree[0] == "call" and tree[1] == "StartsWith" and column(tree[2][0], "Text") and constant(tree[2][1])

    def reads_row(self, tree, place, depth):
        """Whether a formula reads the row of the scope at this depth."""
        if not isinstance(tree, (tuple, list)):
            return False
        if isinstance(tree, tuple) and tree[0] == "name":
            bound = [at for at, (columns, alias) in enumerate(place.scopes) if (alias is None and tree[1] in columns) or alias == tree[1] or (alias is None and tree[1] == "ThisRecord")]
            return bound[-1:] == [depth]
        if isinstance(tree, tuple) and tree[0] == "call" and tree[1] in SCOPED and tree[2]:
            first = self.bare(tree[2][0])
            ty = self.node(first, place).ty
            inner = place.within(columns_of(ty), tree[2][0][2] if tree[2][0][0] == "as" else None) if isinstance(ty, tuple) else place
            return self.reads_row(first, place, depth) or any(self.reads_row(it, inner, depth) for it in tree[2][1:])
        return any(self.reads_row(it, place, depth) for it in tree[1 if isinstance(tree, tuple) else 0 :])

    # -- what acts

    def target(self, tree):
        """What an acting call acts on: whether it is a table of the keeper, its name and its columns."""
        tree = self.bare(tree)
        assert tree[0] in ("name", "global"), tree
        if tree[1] in self.app.tables:
            return True, tree[1], self.app.tables[tree[1]].columns()
        return False, tree[1], self.app.gathered.get(tree[1]) or {}

    def call_Set(self, args, place):
        name, part = args[0][1], self.node(args[1], place)
        self.app.assign("globals", name, part.ty)
        return self.giving(lambda st, v: st.give("globals", name, v), part, self.app.globals.get(name, "Blank"))

    def giving(self, give, part, ty):
        return Node("Boolean", lambda st, sc: give(st, coerce_if(part.run(st, sc), part.ty, ty)), True)

    def call_UpdateContext(self, args, place):
        fields = [(name, self.node(part, place)) for name, part in args[0][1]]
        for name, part in fields:
            self.app.assign("context", (place.screen, name), part.ty)

        def run(st, sc):
            values = [part.run(st, sc) for _, part in fields]
            for (name, part), value in zip(fields, values):
                done = st.give("context", (place.screen, name), coerce_if(value, part.ty, self.app.context[place.screen, name]))
                if done is not True:
                    return done
            return True
        return Node("Boolean", run, True)

    def collected(self, args, place, clears):
        name, parts = args[0][1], [self.node(it, place) for it in args[1:]]
        for part in parts:
            self.app.assign("gathered", name, columns_of(part.ty) if isinstance(part.ty, tuple) else {"Value": part.ty})
        columns = self.app.gathered.get(name) or {}

        def rows_of(part, value):
            if isinstance(part.ty, tuple) and part.ty[0] == "Table":
                return [widened(row, columns) for row in value or []]
            if isinstance(part.ty, tuple):
                return [widened(value or {}, columns)]
            return [widened({"Value": value}, columns)]

        def run(st, sc):
            values = [part.run(st, sc) for part in parts]
            error = first_error(values)
            if error:
                return error
            before = [] if clears else st.session.gathered.get(name, [])
            return st.give("gathered", name, before + [row for part, value in zip(parts, values) for row in rows_of(part, value)])
        return Node("Boolean", run, True)

    def call_Collect(self, args, place):
        return self.collected(args, place, False)

    def call_ClearCollect(self, args, place):
        return self.collected(args, place, True)

    def call_Clear(self, args, place):
        return Node("Boolean", lambda st, sc: st.give("gathered", args[0][1], []), True)

    def call_Notify(self, args, place):
        part = self.to(self.node(args[0], place), "Text")

        def run(st, sc):
            text = part.run(st, sc)
            if isinstance(text, Err):
                return text
            if len(st.session.notices) == 10:
                return Err("QuotaExceeded")
            st.session.notices.append(text or "")
            return True
        return Node("Boolean", run, True)

    def call_Navigate(self, args, place):
        def run(st, sc):
            st.session.screen, st.session.navigated = args[0][1], True
            return True
        return Node("Boolean", run, True)

    def call_Reset(self, args, place):
        def run(st, sc):
            st.session.inputs.pop(args[0][1], None)
            return True
        return Node("Boolean", run, True)

    def call_Patch(self, args, place):
        kept, name, columns = self.target(args[0])
        base, changes = self.node(args[1], place), [self.node(it, place) for it in args[2:]]

        def run(st, sc):
            values = [part.run(st, sc) for part in [base] + changes]
            error = first_error(values)
            if error:
                return error
            given = {}
            for value, change in zip(values[1:], changes):
                part = {it: None for it in columns_of(change.ty)} if value is None else value
                error = error or first_error([part[it] for it in sorted(part)])
                given.update({it: part.get(it) for it in columns_of(change.ty)})
            if kept:
                return st.patch_row(name, values[0], given, error)
            return error or st.patch_gathered(name, columns, values[0], given)
        return Node(("Record", columns), run, True)

    def call_Remove(self, args, place):
        kept, name, columns = self.target(args[0])
        rows = [self.node(it, place) for it in args[1:]]

        def run(st, sc):
            values = [part.run(st, sc) for part in rows]
            error = first_error(values)
            if error:
                return error
            for value in values:
                done = st.remove_row(name, field(value, "ID")) if kept else st.remove_gathered(name, columns, value)
                if done is not True:
                    return done
            return True
        return Node("Boolean", run, True)

    def found(self, args, place):
        """What `RemoveIf` and `UpdateIf` filter, with the places of the rows that it keeps."""
        kept, name, columns = self.target(args[0])
        tree = ("call", "Filter", args)
        alias = args[0][2] if args[0][0] == "as" else None
        if kept:
            return kept, name, columns, alias, self.node(tree, place)
        inner = place.within(columns, alias)
        tests = [self.to(self.node(it, inner), "Boolean") for it in args[1:]]

        def run(st, sc):
            rows, places, error = st.session.gathered.get(name, []), [], None
            for at, row in enumerate(rows):
                values = [test.run(st, sc.within(row)) for test in tests]
                error = error or first_error(values)
                if all(values):
                    places.append(at)
            return error or places
        return kept, name, columns, alias, Node(None, run)

    def call_RemoveIf(self, args, place):
        kept, name, columns, _, filtered = self.found(args, place)

        def run(st, sc):
            rows = filtered.run(st, sc)
            if isinstance(rows, Err):
                return rows
            if kept:
                for row in rows:
                    st.remove_row(name, row["ID"])
                return True
            return st.give("gathered", name, [row for at, row in enumerate(st.session.gathered.get(name, [])) if at not in rows])
        return Node("Boolean", run, True)

    def call_UpdateIf(self, args, place):
        kept, name, columns, alias, filtered = self.found(args[:2], place)
        change = self.node(args[2], place.within(columns, alias))

        def given(value):
            return {it: None for it in columns_of(change.ty)} if value is None else value

        def run(st, sc):
            rows = filtered.run(st, sc)
            if isinstance(rows, Err):
                return rows
            held = st.session.gathered.get(name, [])
            changes = [change.run(st, sc.within(row if kept else held[row])) for row in rows]
            for value in changes:
                error = value if isinstance(value, Err) else first_error([given(value)[it] for it in sorted(given(value))])
                if error:
                    return error
            if not kept:
                after = [dict(row) for row in held]
                for at, value in zip(rows, changes):
                    after[at].update(given(value))
                return st.give("gathered", name, after)
            for row, value in zip(rows, changes):
                done = st.tables[name].replace(row["ID"] // ONE, given(value))
                if isinstance(done, Err):
                    return done
            return True
        return Node("Boolean", run, True)


def coerce_if(value, ty, to):
    return coerce(value, to) if isinstance(to, tuple) else value


def cut(rows, limit):
    return rows[:limit] if isinstance(rows, list) else rows


def rank(key):
    return (0, 0) if key is None else (1, key.days if isinstance(key, Day) else key)


def holds(sign, a, b):
    if sign in ("=", "<>"):
        same = a == b and type(a) is type(b)
        return same == (sign == "=")
    if isinstance(a, Day) or isinstance(b, Day):
        if a is None or b is None:
            return False
        a, b = a.days, b.days
    a, b = a or 0, b or 0
    return {"<": a < b, "<=": a <= b, ">": a > b, ">=": a >= b}[sign]


def total_of(name, values):
    values = [it for it in values if it is not None]
    if not values:
        return None
    return {"Sum": lambda: in_range(sum(values)), "Min": lambda: min(values), "Max": lambda: max(values)}[name]()


OPERATORS = {"+": lambda a, b: in_range(a + b), "-": lambda a, b: in_range(a - b), "*": lambda a, b: in_range(rounded(a * b, ONE)),
             "/": lambda a, b: in_range(rounded(a * ONE, b)) if b else Err("Div0")}
SCOPED = ("Filter", "LookUp", "Sort", "CountIf", "Sum", "Min", "Max", "Concat", "ForAll", "AddColumns", "With")
KINDS = ("Div0", "Numeric", "InvalidArgument", "NotFound", "MissingRequired", "ConstraintViolated", "QuotaExceeded", "Validation", "Custom")


def left(text, count):
    return Err("InvalidArgument") if (count or 0) <= -ONE else (text or "")[: int((count or 0) / ONE)]


def modulo(a, b):
    return Err("Div0") if not b else (a or 0) % b


def middle(text, start, count=None):
    start, count = int((start or 0) / ONE), None if count is None else int(count / ONE)
    if start < 1 or (count or 0) < 0:
        return Err("InvalidArgument")
    return (text or "")[start - 1 :] if count is None else (text or "")[start - 1 : start - 1 + count]


def power(a, b):
    a, b = a or 0, b or 0
    if b % ONE or abs(b) > 1000 * ONE:
        return Err("InvalidArgument")
    made = ONE
    for _ in range(abs(b) // ONE):
        made = in_range(rounded(made * a, ONE))
        if isinstance(made, Err):
            return made
    return made if b >= 0 else OPERATORS["/"](ONE, made)


SCALAR = {
    "Mid": (["Text", "Number", "Number"], "Text", middle),
    "Power": (["Number", "Number"], "Number", power),
    "Blank": ([None], "Blank", lambda: None),
    "Len": (["Text"], "Number", lambda text: len(text or "") * ONE),
    "Left": (["Text", "Number"], "Text", left),
    "Upper": (["Text"], "Text", lambda text: "".join(it.upper() if it.isascii() else it for it in text or "")),
    "Text": ([None], "Text", lambda value: None if value is None else text_in(value)),
    "Value": (["Text"], "Number", number_in),
    "Concatenate": (["Text"], "Text", lambda *texts: made("".join(it or "" for it in texts))),
    "StartsWith": (["Text", "Text"], "Boolean", lambda text, start: (text or "").casefold().startswith((start or "").casefold())),
    "Mod": (["Number", "Number"], "Number", modulo),
    "Abs": (["Number"], "Number", lambda a: abs(a or 0)),
}


# ---- tables

class Table:
    """The rows of a table by rising numbers, and its last number."""

    def __init__(self, shape):
        self.shape, self.rows, self.last = shape, [], 0

    def columns(self):
        return {"ID": "Number", **{it["name"]: it["type"] for it in self.shape["columns"]}}

    def refusal(self, cells, id=None):
        """The first rule that cells break, with its column, or None."""
        shape = self.shape["columns"]
        for it in shape:
            if it.get("required") and cells[it["name"]] in (None, ""):
                return "required", it["name"]
        for it in shape:
            value = cells[it["name"]]
            if it.get("unique") and value is not None and any(row[it["name"]] == value for row in self.rows if row["ID"] != id):
                return "unique", it["name"]
        return ("size", "") if sum(weigh(cells[it["name"]]) for it in shape) > 2048 else None

    def insert(self, given):
        cells = {it["name"]: given.get(it["name"]) for it in self.shape["columns"]}
        refused = self.refusal(cells)
        if refused:
            return error_of(refused)
        self.last += 1
        self.rows.append({"ID": self.last * ONE, **cells})
        return dict(self.rows[-1])

    def replace(self, id, given):
        row = next((it for it in self.rows if it["ID"] == id * ONE), None)
        if row is None:
            return Err("NotFound")
        cells = {**row, **given}
        refused = self.refusal(cells, id * ONE)
        if refused:
            return error_of(refused)
        row.update(given)
        return dict(row)

    def remove(self, id):
        before = len(self.rows)
        self.rows = [it for it in self.rows if it["ID"] != id]
        return len(self.rows) < before

    def take_over(self, source, columns):
        """Takes the rows, their numbers and the last one from another table, if there is one: `columns` are the sources of columns."""
        if source:
            self.last = source.last
            self.rows = [{"ID": row["ID"], **{it["name"]: row.get(columns.get(it["name"])) for it in self.shape["columns"]}} for row in source.rows]


def error_of(refused):
    rule, column = refused
    return Err({"required": "MissingRequired", "unique": "ConstraintViolated", "size": "QuotaExceeded"}[rule], column)


# ---- moves of tables and columns to another app; a move with a column is one of that column

def table_source(olds, moves, name):
    """The name of the old table that a new one comes from, or None: the one that is moved to it, or that of its own name, which isn't moved."""
    moves = [it for it in moves if "column" not in it and it["table"] in olds]
    moved = [it["table"] for it in moves if it["to"] == name]
    stays = name in olds and all(it["table"] != name for it in moves)
    return moved[0] if moved else name if stays else None


def source_of(olds, moves, name):
    """The old table that a new one comes from, or None, and of its columns those that theirs come from."""
    source = table_source(olds, moves, name)
    if source is None:
        return None, {}
    moves = [it for it in moves if "column" in it and it["table"] == source]
    columns = {it["name"]: it["name"] for it in olds[source].shape["columns"] if all(move["column"] != it["name"] for move in moves)}
    return olds[source], {**columns, **{it["to"]: it["column"] for it in reversed(moves)}}


def target_of(olds, news, moves, name):
    """The new table that comes from an old one, or None; of two that are to, the one that is named first."""
    named = [it["to"] for it in moves if "column" not in it and it["table"] == name]
    return next((news[it] for it in named + [name] if it in news and table_source(olds, moves, it) == name), None)


def columns_in(table):
    return [it["name"] for it in table.shape["columns"]]


def broken_move(olds, news, moves):
    """The first move that names nothing in the old app or in the new one, or what an earlier one named: its column, the rule and its table."""
    seen = []
    for move in moves:
        table, column = move["table"], move.get("column")
        target = news.get(move["to"]) if column is None else target_of(olds, news, moves, table)
        there = table in olds and target is not None and (column is None or column in columns_in(olds[table]) and move["to"] in columns_in(target))
        names = [("old", table, column), ("new", target, column is None or move["to"])]
        if not there or any(it in seen for it in names):
            return column or "", "move", table
        seen += names
    return None


def mistyped(olds, news, moves):
    """The first column whose source has another type."""
    for name, table in news.items():
        source, columns = source_of(olds, moves, name)
        for it in table.shape["columns"]:
            if source and it["name"] in columns and source.columns()[columns[it["name"]]] != it["type"]:
                return it["name"], "type", name
    return None


def broken_row(tables):
    """The first rule that a row breaks beside the others of its table."""
    for name, table in tables.items():
        for row in table.rows:
            broken = table.refusal(row, row["ID"])
            if broken:
                return broken[1], broken[0], name
    return None


# ---- apps

class App:
    """An accepted app: its formulas as nodes, and the types of what it names."""

    def __init__(self, file):
        self.file = file
        self.limit = file.get("rowLimit", 500)
        self.tables = {it["name"]: Table(it) for it in file.get("tables", [])}
        self.screens = {it["name"]: it for it in file["screens"]}
        self.controls = {}
        for screen in file["screens"]:
            for it in screen["controls"]:
                self.controls[it["name"]] = {**it, "screen": screen["name"]}
        self.named = dict(parse_named(file.get("formulas", "")))
        self.trees = {("App", "OnStart"): self.tree(file.get("onStart"))}
        for screen in file["screens"]:
            self.trees[screen["name"], "OnVisible"] = self.tree(screen.get("onVisible"))
            for it in screen["controls"]:
                for name, text in it.get("properties", {}).items():
                    self.trees[it["name"], name] = self.tree(text)
        self.types()

    def tree(self, text):
        return parse(text) if text else None

    def kind(self, name):
        """The kind of a control, or None."""
        return self.controls[name]["kind"] if name in self.controls else None

    def order(self):
        """The formulas in the order of apps, with their places."""
        found = [("named", name, tree, Place(None, None)) for name, tree in self.named.items()]
        found.append(("cell", ("App", "OnStart"), self.trees["App", "OnStart"], Place(None, None)))
        for screen in self.screens.values():
            found.append(("cell", (screen["name"], "OnVisible"), self.trees[screen["name"], "OnVisible"], Place(screen["name"], None)))
            for it in screen["controls"]:
                for name in ["Visible"] + [one for one, _ in PROPERTIES[it["kind"]]] + BEHAVIOUR[it["kind"]]:
                    tree = self.trees.get((it["name"], name))
                    found.append(("cell", (it["name"], name), tree, self.place(it, screen["name"], name)))
        return [it for it in found if it[2]]

    def place(self, control, screen, name):
        if "in" in control:
            return Place(screen, self.item_columns(control["in"]))
        return Place(screen, self.item_columns(control["name"]) if control["kind"] == "Gallery" and name == "OnSelect" else None)

    def item_columns(self, gallery):
        ty = self.item_types.get(gallery, "Blank")
        return ty[1] if isinstance(ty, tuple) and ty[0] == "Table" else {}

    def assign(self, what, name, ty):
        self.assigned.append((what, name, ty))

    def types(self):
        """The types by rounds: all begin blank, and each round works under those of the one before."""
        self.globals, self.context, self.gathered, self.named_types, self.item_types = {}, {}, {}, {}, {}
        for _, _, tree, place in self.order():
            self.declare(tree, place.screen)
        for _ in range(256):
            before = (dict(self.globals), dict(self.context), copy.deepcopy(self.gathered), dict(self.named_types), dict(self.item_types))
            self.round()
            if before == (self.globals, self.context, self.gathered, self.named_types, self.item_types):
                break
        self.nodes = self.round()

    def declare(self, tree, screen):
        """Finds the names that acting calls give a value."""
        if isinstance(tree, tuple) and tree[:1] == ("call",):
            if tree[1] == "Set":
                self.globals[tree[2][0][1]] = "Blank"
            elif tree[1] in ("Collect", "ClearCollect"):
                self.gathered[tree[2][0][1]] = None
            elif tree[1] == "UpdateContext":
                self.context.update({(screen, name): "Blank" for name, _ in tree[2][0][1]})
        for part in tree if isinstance(tree, (tuple, list)) else ():
            self.declare(part, screen)

    def round(self):
        self.assigned, nodes, named, items = [], {}, {}, {}
        typer = Typer(self)
        for kind, name, tree, place in self.order():
            try:
                node = typer.node(tree, place)
            except (NameError, KeyError):
                node = Node("Blank", lambda st, sc: None)
            if kind == "named":
                named[name] = node.ty
            elif name[1] == "Items":
                items[name[0]] = node.ty
            nodes[name] = node
        given = {"globals": dict.fromkeys(self.globals, "Blank"), "context": dict.fromkeys(self.context, "Blank"), "gathered": dict.fromkeys(self.gathered)}
        for what, name, ty in self.assigned:
            held = given[what]
            if what == "gathered":
                joined = ("Table", ty) if held[name] is None else join(("Table", held[name]), ("Table", ty))
                held[name] = joined[1] if joined else held[name]
            else:
                held[name] = join(held[name], ty) or held[name]
        self.globals, self.context, self.gathered = given["globals"], given["context"], given["gathered"]
        self.named_types, self.item_types = named, items
        return nodes

    def edited(self, cell, text):
        """The app with one formula replaced."""
        file = copy.deepcopy(self.file)
        owner, _, name = cell.rpartition(".")
        if not owner:
            named = parse_named(file["formulas"])
            assert any(it == cell for it, _ in named)
            app = App(file)
            app.named[cell] = parse(text)
            app.types()
            return app
        if owner == "App":
            file["onStart"] = text
        for screen in file["screens"]:
            if screen["name"] == owner:
                screen["onVisible"] = text
            for it in screen["controls"]:
                if it["name"] == owner:
                    it.setdefault("properties", {})[name] = text
        app = App(file)
        app.named = dict(self.named)
        app.types()
        return app


# ---- the office

class Session:
    def __init__(self, app):
        self.screen, self.globals, self.context, self.gathered = next(iter(app.screens)), {}, {}, {}
        self.inputs, self.chosen, self.notices, self.navigated = {}, {}, [], False
        self.last, self.body, self.reply = 0, None, None

    def weight(self, app):
        held = [self.globals.get(it) for it in app.globals] + [self.context.get(it) for it in app.context]
        return sum(weigh(it) for it in held) + sum(weigh(self.gathered.get(it, [])) for it in app.gathered)


class State:
    """What a formula reads and changes: the tables and a session."""

    def __init__(self, app, tables, session, moment):
        self.app, self.tables, self.session, self.moment = app, tables, session, moment

    def today(self):
        days = self.moment // 86_400
        return Day(days) if days <= 2_932_896 else Err("InvalidArgument")

    def named(self, name):
        return self.app.nodes[name].run(self, Scope())

    def property(self, control, name, item=None):
        node = self.app.nodes.get((control["name"], name))
        if node is None:
            return {"Slider": 0, "Checkbox": False}.get(control["kind"]) if name == "Default" else MISSING[name]
        value = node.run(self, Scope(item=item))
        ty = "Boolean" if name == "Visible" else dict(PROPERTIES[control["kind"]])[name]
        return value if ty == "Table" else coerce(value, ty)

    def input(self, control):
        if control["name"] in self.session.inputs:
            return self.session.inputs[control["name"]]
        return self.property(control, INPUTS[control["kind"]][1])

    def rows(self, gallery):
        return self.property(gallery, "Items")

    def selected(self, gallery):
        rows = self.rows(gallery)
        if isinstance(rows, Err):
            return rows
        rows, chosen = rows or [], self.session.chosen.get(gallery["name"])
        if chosen is None:
            found = rows[:1]
        elif chosen[1] is not None:
            found = [it for it in rows if it.get("ID") == chosen[1] * ONE][:1]
        else:
            found = rows[chosen[0] - 1 : chosen[0]]
        return found[0] if found else None

    def give(self, what, name, value):
        """Gives a variable or a collection its value, unless the session would weigh too much."""
        held = getattr(self.session, what)
        old, before = held.get(name), self.session.weight(self.app)
        held[name] = value
        after = self.session.weight(self.app)
        if after > before and after > HEAVIEST:
            held[name] = old
            if old is None:
                del held[name]
            return Err("QuotaExceeded")
        return True

    def patch_row(self, name, base, given, error):
        id = field(base, "ID")
        if base is not None and isinstance(id, Err):
            return id
        if error:
            return error
        if base is None:
            return Err("NotFound")
        if id is None:
            return self.tables[name].insert(given)
        return self.tables[name].replace(id // ONE, given) if id % ONE == 0 else Err("NotFound")

    def patch_gathered(self, name, columns, base, given):
        rows, base = self.session.gathered.get(name, []), widened(base or {}, columns)
        row = {**base, **given}
        if all(it is None for it in base.values()):
            done = self.give("gathered", name, rows + [row])
            return row if done is True else done
        if base not in rows:
            return Err("NotFound")
        at = rows.index(base)
        done = self.give("gathered", name, rows[:at] + [row] + rows[at + 1 :])
        return row if done is True else done

    def remove_row(self, name, id):
        if isinstance(id, Err):
            return id
        return True if id is not None and self.tables[name].remove(id) else Err("NotFound")

    def remove_gathered(self, name, columns, row):
        rows, row = self.session.gathered.get(name, []), widened(row or {}, columns)
        if row not in rows:
            return Err("NotFound")
        at = rows.index(row)
        return self.give("gathered", name, rows[:at] + rows[at + 1 :])


def item_id(row):
    id = row.get("ID")
    return id // ONE if is_number(id) and id % ONE == 0 and 1 <= id // ONE <= 4_294_967_295 else None


def refused(code, detail=None):
    return code, {"refused": {"code": code, "detail": detail, "name": NAMES[code]}}


class Office:
    """Answers requests one after another. An answer is a code, None where the request was accepted, and its JSON."""

    def __init__(self, file, moment=0):
        self.app, self.sessions, self.desks, self.moment = App(file), {}, {}, moment
        self.tables = self.app.tables

    def answer(self, method, path, body=None):
        parts = path.strip("/").split("/")
        if parts[0] == "s" and len(parts) == 2:
            return self.open(parts[1]) if method == "PUT" else self.close(parts[1])
        if parts[0] == "s":
            if parts[1] not in self.sessions:
                return refused(11)
            return getattr(self, "get_" + parts[2] if method == "GET" else "post_" + parts[2])(self.sessions[parts[1]], *(parts[3:] if method == "GET" else [body]))
        if parts[0] == "desk":
            return self.desk(parts[1], parts[2], body)
        assert parts[0] == "rows", path
        return self.page(parts[1], int(parts[2]))

    # -- sessions

    def open(self, name):
        if name not in self.sessions:
            if len(self.sessions) == 256:
                return refused(12)
            session = Session(self.app)
            self.transact(session, lambda st: self.opened(st))
            session.notices = []
            self.sessions[name] = session
        return None, {"ok": True}

    def opened(self, st):
        self.run(st, ("App", "OnStart"))
        self.run(st, (st.session.screen, "OnVisible"))

    def close(self, name):
        self.sessions.pop(name, None)
        return None, {"ok": True}

    def transact(self, session, act):
        session.notices, session.navigated = [], False
        return act(State(self.app, self.tables, session, self.moment))

    def run(self, st, cell, item=None):
        node = self.app.nodes.get(cell)
        return node.run(st, Scope(item=item)) if node else None

    def acted(self, st, cell, item=None):
        """Runs the formula of an event or input, and where it navigated that of the screen that is then current."""
        st.session.navigated = False
        value = self.run(st, cell, item)
        if st.session.navigated:
            self.run(st, (st.session.screen, "OnVisible"))
        return value

    def state(self, session):
        return State(self.app, self.tables, session, self.moment)

    def is_shown(self, st, control):
        outer = self.app.controls[control["in"]] if "in" in control else control
        return outer["screen"] == st.session.screen and st.property(outer, "Visible") is True

    def numbered(self, caller, body, act):
        asked = json.loads(body)
        if caller.last and asked["seq"] == caller.last:
            return (None, caller.reply) if body == caller.body else refused(14)
        if asked["seq"] != caller.last + 1:
            return refused(13, caller.last)
        code, reply = act(asked)
        if code is None:
            caller.last, caller.body, caller.reply = asked["seq"], body, reply
        return code, reply

    def post_event(self, session, body):
        return self.numbered(session, body, lambda asked: self.event(session, asked))

    def post_input(self, session, body):
        return self.numbered(session, body, lambda asked: self.input(session, asked))

    def event(self, session, asked):
        st, control = self.state(session), self.app.controls.get(asked["control"])
        if control is None:
            return refused(15)
        if asked["event"] != "OnSelect" or "OnSelect" not in BEHAVIOUR[control["kind"]]:
            return refused(16)
        if not self.is_shown(st, control):
            return refused(17)
        gallery = self.app.controls[control["in"]] if "in" in control else control if control["kind"] == "Gallery" else None
        item = asked.get("item")
        if (gallery is None) != (item is None):
            return refused(18)
        row = None
        if gallery:
            rows = st.rows(gallery)
            rows = [] if isinstance(rows, Err) or rows is None else rows
            if item["at"] > len(rows):
                return refused(18)
            row = rows[item["at"] - 1]
            if "id" in item and item["id"] != item_id(row):
                return refused(19, item_id(row))
            if "in" in control and st.property(control, "Visible", row) is not True:
                return refused(17)
        session.notices = []
        if gallery:
            session.chosen[gallery["name"]] = (item["at"], item_id(row))
        return self.done(session, asked, self.acted(st, (control["name"], "OnSelect"), row))

    def input(self, session, asked):
        st, control = self.state(session), self.app.controls.get(asked["control"])
        if control is None:
            return refused(15)
        if control["kind"] not in INPUTS or "in" in control:
            return refused(16)
        if not self.is_shown(st, control):
            return refused(17)
        value = asked["value"]
        if value is not None:
            value = self.taken(st, control, value)
            if value is None:
                return refused(20)
        session.notices = []
        if value is None:
            session.inputs.pop(control["name"], None)
        else:
            session.inputs[control["name"]] = value
        name = "OnChange"
        if control["kind"] == "Checkbox":
            name = "OnCheck" if st.input(control) is True else "OnUncheck"
        return self.done(session, asked, self.acted(st, (control["name"], name)))

    def taken(self, st, control, value):
        kind = control["kind"]
        if kind == "Checkbox":
            return value if isinstance(value, bool) else None
        if kind == "TextInput":
            return value if isinstance(value, str) and len(value.encode()) <= 4096 else None
        units = units_in(value)
        if kind != "Slider" or units is None:
            return None
        bounds = [st.property(control, it) for it in ("Min", "Max")]
        if first_error(bounds):
            return None
        return units if (bounds[0] or 0) <= units <= (bounds[1] or 0) else None

    def done(self, session, asked, value):
        notices, session.notices = session.notices, []
        shown = None if isinstance(value, (dict, list)) else value_json(value)
        return None, {"notices": notices, "seq": asked["seq"], "value": shown}

    def get_view(self, session):
        st, controls = self.state(session), []
        for it in self.app.controls.values():
            if "in" in it or not self.is_shown(st, it):
                continue
            shown = self.items(st, it, 1) if it["kind"] == "Gallery" else {"values": self.values(st, it)}
            controls.append({"kind": it["kind"], "name": it["name"], **shown})
        return None, {"controls": controls, "screen": session.screen}

    def values(self, st, control, item=None):
        if control["kind"] in ("Label", "Button"):
            return {"Text": value_json(st.property(control, "Text", item))}
        name = INPUTS[control["kind"]][0]
        more = {"Slider": ("Min", "Max"), "Checkbox": ("Text",)}.get(control["kind"], ())
        return {name: value_json(st.input(control)), **{it: value_json(st.property(control, it)) for it in more}}

    def items(self, st, gallery, start):
        rows = st.rows(gallery)
        if isinstance(rows, Err):
            return {"items": value_json(rows), "total": 0}
        rows, found = rows or [], []
        for at in range(start, min(start + 99, len(rows)) + 1):
            row = rows[at - 1]
            inside = [it for it in self.app.controls.values() if it.get("in") == gallery["name"] and st.property(it, "Visible", row) is True]
            found.append({"at": at, "controls": [{"kind": it["kind"], "name": it["name"], "values": self.values(st, it, row)} for it in inside], "id": item_id(row)})
        return {"items": found, "total": len(rows)}

    def get_items(self, session, name, start):
        st, gallery = self.state(session), self.app.controls.get(name)
        if gallery is None or gallery["kind"] != "Gallery":
            return refused(15)
        if not self.is_shown(st, gallery):
            return refused(17)
        return None, self.items(st, gallery, max(1, int(start)))

    def get_named(self, session):
        st = self.state(session)
        return None, {"named": [{"name": name, "value": value_json(st.named(name))} for name in self.app.named]}

    # -- desks

    def desk(self, name, what, body):
        if name not in self.desks and len(self.desks) == 64:
            return refused(12)
        caller = self.desks.get(name) or Session(self.app)
        code, reply = self.numbered(caller, body, lambda asked: getattr(self, "desk_" + what)(asked))
        if code is None:
            self.desks[name] = caller
        return code, reply

    def desk_edit(self, asked):
        new = self.app.edited(asked["cell"], asked["text"])
        new.tables = self.tables
        self.go_over(new)
        return None, {"seq": asked["seq"]}

    def go_over(self, new):
        """The app takes the place of the present one. Each session keeps, by names, what both have with the same type or of the same kind."""
        old = self.app
        for session in self.sessions.values():
            for what in ("globals", "context"):
                held, before, after = getattr(session, what), getattr(old, what), getattr(new, what)
                setattr(session, what, {it: value for it, value in held.items() if it in after and before.get(it) == after[it]})
            session.gathered = {it: rows for it, rows in session.gathered.items() if it in new.gathered and old.gathered.get(it) == new.gathered[it]}
            session.inputs = {it: value for it, value in session.inputs.items() if new.kind(it) == old.kind(it)}
            session.chosen = {it: row for it, row in session.chosen.items() if new.kind(it) == "Gallery"}
            if session.screen not in new.screens:
                session.screen = next(iter(new.screens))
        self.app, self.tables = new, new.tables

    def desk_app(self, asked):
        """Replaces the whole app, and moves the tables to it. What is wrong with the app isn't judged."""
        new, moves, olds = App(asked["app"]), asked["moves"], self.tables
        refusal = broken_move(olds, new.tables, moves) or mistyped(olds, new.tables, moves)
        if refusal is None:
            for name, table in new.tables.items():
                table.take_over(*source_of(olds, moves, name))
            refusal = broken_row(new.tables)
        if refusal:
            column, rule, table = refusal
            return refused(27, {"column": column, "rule": rule, "table": table})
        self.go_over(new)
        return None, {"seq": asked["seq"]}

    def desk_rows(self, asked):
        kept, ids = copy.deepcopy(self.tables), []
        for at, change in enumerate(asked["changes"]):
            code, reply = self.changed(at, change)
            if code:
                self.tables.clear()
                self.tables.update(kept)
                return code, reply
            ids.append(reply)
        return None, {"ids": ids, "seq": asked["seq"]}

    def changed(self, at, change):
        table = self.tables.get(change["table"])
        if table is None:
            return refused(21)
        row = next((it for it in table.rows if it["ID"] == change.get("id", 0) * ONE), None)
        if change["op"] != "add" and row is None:
            return refused(22)
        if change["op"] == "remove":
            table.remove(change["id"] * ONE)
            return None, change["id"]
        columns, given = table.columns(), {}
        for name in sorted(change["row"]):
            if name == "ID" or name not in columns:
                return refused(23, {"at": at, "column": name, "rule": "column"})
            value = change["row"][name]
            given[name] = units_in(value) if columns[name] == "Number" and value is not None else value
            if value is not None and not is_of(value, columns[name]):
                return refused(23, {"at": at, "column": name, "rule": "type"})
        cells = {it: given.get(it) if row is None else given.get(it, row[it]) for it in columns if it != "ID"}
        if row is not None:
            cells = {**{it: row[it] for it in cells}, **given}
        broken = table.refusal(cells, row["ID"] if row else None)
        if broken:
            return refused(23, {"at": at, "column": broken[1], "rule": broken[0]})
        done = table.replace(change["id"], given) if row else table.insert(given)
        return None, done["ID"] // ONE

    def page(self, name, after):
        if name not in self.tables:
            return refused(21)
        rows = [it for it in self.tables[name].rows if it["ID"] > after * ONE]
        return None, {"more": len(rows) > 100, "rows": [row_json(it) for it in rows[:100]]}


def is_of(value, ty):
    """Whether JSON is a value of a column's type."""
    if ty == "Number":
        return units_in(value) is not None
    return isinstance(value, {"Text": str, "Boolean": bool}.get(ty, dict))


def units_in(value):
    """The number that JSON spells, or None."""
    if isinstance(value, bool) or not isinstance(value, (int, dict)):
        return None
    return value * ONE if isinstance(value, int) else read(value["n"])


def body_of(reply):
    return json.dumps(reply, sort_keys=True, separators=(",", ":"), ensure_ascii=False)
