#!/usr/bin/env python3
"""Lists the definitions that the clauses of `run` reach, for docs/READING.md.

usage: bench/reading.py [--from NAMES] [--stop NAMES]
       bench/reading.py --tables

It reads crates/*/specs and crates/*/src. From the contract of `fx_cli::run` and from the traits that it names it follows every
name to its definition, and from there on. A line counts where it belongs to a definition that was reached, and is neither empty nor a comment.
It prints a line for each file: the lines that are reached of those that it has, and what the file says that it defines. With
--from it begins at these definitions, and with --stop it doesn't open these, which are then taken on trust; NAMES are of the
form CRATE.NAME, with commas between them. With --tables it writes the tables of docs/READING.md behind the line `## The
tables`, in place of those that stand there, by the PARTS, the STEPS and the CLAIMS below. It follows names by the imports of
each file and proves nothing: a definition that is missed shows as a name that a reader doesn't find on the list."""
import math
import os
import re
import sys

TOP = os.path.join(os.path.dirname(os.path.realpath(__file__)), "..")
CRATES = os.path.join(TOP, "crates")
NAME = re.compile(r"[A-Za-z_][A-Za-z0-9_]*(?:\.[A-Za-z_][A-Za-z0-9_]*)*")
HEAD = re.compile(r"(?:(?:abbrev|pub|unfoldable|opaque|data|record)\s+)*([^\s:(){},]+)")
# The parts of docs/READING.md: where each begins. It doesn't open where later ones begin, and has what earlier ones haven't.
RUN = "fx_cli.run"
PARTS = [
    ("The office, over any app and any meaning of formulas", [RUN, "app_wire.Doors", "app_wire.Clock", "fx_cli.Files", "fx_cli.Sink"], "What a run does with words, a file, conversations and rows. Which app a file is, what a formula is worth, what one does that acts, and how a keeper answers queries, is taken on trust: any meaning of these would do."),
    ("What formulas mean", ["app_semantics.IsValueOf", "session_requests.PerformsCell", "row_keeper.Keeper", "fx_core.Core", "fx_core.Fun"], "The value of a formula and what one does that acts, by recursion on its typed tree; the functions; and what a keeper's calls may do, queries among them. Which texts have which typed trees is taken on trust."),
    ("What a file is", ["app_loader.JudgedApp", "app_loader.Judged", "app_loader.JudgedEdit", "app_semantics.IsSoundApp", "session_requests.CanOpen", "app_reports.plan_text", "app_reports.checked_text", "app_reports.graph_text", "fx_core.Expr"], "Which bytes are an app, with which typed trees, or which rules they break; the same of a text of named formulas and of an edit; and what `check`, the plan and the graph tell of an app."),
    ("Beside the theorem: what stays clean, and what answering costs", ["office.LeavesClean", "office.LeavesActed", "office.LeavesStopped", "office.CostsAnswered"], "`run` promises nothing of this, since what is kept changes no reply: these are the clauses `clean`, `acted` and `costs` of `Office::answer`."),
]
# The files with which the claims of docs/READING.md can be judged, all other names taken on trust.
CLAIMS = [
    ("What is answered is what the office answers", [RUN, "fx_cli/specs/Conversations", "office/specs/Answers", "app_wire/specs/Framing", "office/specs/Step"]),
    ("A value that is shown is its formula's, evaluated afresh", ["session_views/specs/Views", "app_semantics/specs/Needed", "app_semantics/specs/Fresh", "fx_semantics/specs/Fresh"]),
    ("A request acts once", ["numbered_requests/specs/Checks", "session_state/specs/Once"]),
    ("What acts does so whole", ["session_requests/specs/Posting", "session_requests/specs/Targets", "session_requests/specs/Running", "fx_behave/specs/Perform", "row_requests/specs/DeskRows", "row_requests/specs/Changes", "row_keeper/specs/Changes"]),
    ("A refusal names what is wrong, and a fault is counted", ["app_loader/specs/Judged", "fx_base/specs/Silence", "fx_cli/specs/Opening", "fx_cli/specs/Report"]),
]
# The steps of docs/READING.md: which crates each has. The first step that has a file takes it.
STEPS = [
    ("Objects of the outside", ["fx_base", "app_wire/specs/Moments", "app_wire/specs/Doorway", "app_wire/src/clock", "app_wire/src/doors", "fx_cli/specs/Telling", "fx_cli/src/files", "fx_cli/src/sink"], "What a file, an output, doors and a clock tell of themselves, and what each of their calls may do."),
    ("Numbers, values and types", ["fx_number", "fx_types", "fx_value"], "Numbers are whole counts of ten-thousandths. Values and types are seen as plain data."),
    ("Tokens, trees and the grammar", ["fx_lexer", "fx_core/specs/Tree", "fx_core/src/expr", "fx_grammar", "fx_parser"], "From bytes to tokens, and from tokens to trees. `Grammar` has one case for each line of the grammar in `docs/LANGUAGE.md`."),
    ("Functions, typed trees and names", ["fx_core", "fx_sig"], "The table of functions, what each takes and answers, and typed trees. `Rows`, `Entries` and `functions.rt` are tables; hold them against `docs/LANGUAGE.md`."),
    ("Typing", ["fx_typing", "fx_resolve", "fx_node_typing", "fx_call_typing", "fx_diagnostics", "fx_infer"], "Which formulas are admitted, as which typed trees, and what is said of the others. `Details` is only about the words behind a broken rule. Acting calls are judged here too."),
    ("What functions answer", ["fx_primitives", "fx_scalar", "fx_tables"], "Each function of values and of tables, as a function or a relation on plain data."),
    ("What typed trees are worth", ["fx_semantics", "fx_env", "fx_eval"], "The value of a typed tree by recursion on it."),
    ("Rows and keepers", ["row_queries", "row_keeper", "filter_parts", "fx_plan"], "What a query asks of rows, the rules of rows, and what a keeper tells and what each of its calls may do. `keeper.rt` is the trait `Keeper` with its clauses, which are a premise of `run`."),
    ("App files", ["app_file"], "The form of an app file, its limits, and what is read of it. Hold `FormOfApp` against `docs/APP_FILE.md`."),
    ("Formulas of an app", ["app_cells", "app_texts", "app_names", "depend_graph", "app_loader", "app_reports"], "From what a file holds to an app or to what is broken, stage by stage: `Judged` of `app_loader` goes through them in their order; the app in which one formula is replaced; and what is told of where formulas take rows and of what each reads."),
    ("What the formulas of an app are worth", ["session_state", "app_semantics", "recalc", "session_views"], "What a session keeps, and the values of an app's formulas over it, whatever their order."),
    ("What formulas do that act", ["fx_deeds", "fx_behave", "session_requests/specs/Performing", "session_requests/specs/WorldContext", "session_requests/specs/Opening", "session_requests/specs/Requests", "session_requests/specs/Running", "session_requests/specs/Scenes", "session_requests/specs/Triggers", "session_requests/src/trigger", "session_requests/specs/WrittenWhole", "session_requests/specs/Writable"], "What each function that acts makes of tables and a session, what a formula does by recursion on its tree, and what runs in one request."),
    ("Requests and replies", ["app_wire", "view_text", "field_texts", "numbered_requests"], "From bytes to requests, from requests to routes, from replies to bytes, and the checks of numbered requests."),
    ("Requests of rows and of sessions", ["row_requests", "session_requests", "office/specs/DeskEdits", "app_moves", "app_replacements"], "The bodies of posted requests, what a desk's changes do to tables, its edits to the app and the app that replaces it, with the moves of its tables, pages of rows, and what a session's inputs and events do."),
    ("The office", ["office"], "What one request does, and what a whole conversation is."),
    ("The run", ["sample_app", "fx_cli"], "All of this together. With it the clauses of `run` can be read again, each name of which is now known."),
]


def text_of(path):
    with open(path, encoding="utf-8") as file:
        return file.read()


def uses_of(text):
    """Returns the names that a file brings in: each with the path that it stands for."""
    found = {}
    for item in re.findall(r"(?m)^(?:\s*)(?:pub |ghost |unfoldable )*use\s+(Rattle\.[^;\n]*(?:\n[ \t}][^\n;]*)*)", text):
        item = item.strip().rstrip(";")
        path, _, names = item.partition(".{")
        if names:
            for name in names.rstrip("} \n").replace("\n", " ").split(","):
                name, _, called = name.strip().partition(" as ")
                if name:
                    found[(called or name).strip()] = f"{path}.{name.strip()}"
        else:
            path, _, called = item.partition(" as ")
            found[(called or path.rpartition(".")[2]).strip()] = path.strip()
    return found


def code_uses_of(text):
    """Returns the items of the repository's code that a file brings in, each with its crate."""
    found = {}
    for path, names in re.findall(r"(?m)^(?:pub )?use (\w+)::(?:\w+::)*(\{[^}]*\}|\w+(?: as \w+)?);", text):
        for name in names.strip("{}").replace("\n", " ").split(","):
            name, _, called = name.strip().partition(" as ")
            if name:
                found[(called or name).strip()] = (path, name.rpartition("::")[2].strip())
    return found


class File:
    """A file of definitions or of code, cut into its items."""

    def __init__(self, crate, path):
        self.crate, self.path, self.text = crate, path, text_of(path)
        self.short = os.path.relpath(path, CRATES).rpartition(".")[0]
        self.lines = self.text.split("\n")
        self.uses = uses_of(self.text)
        self.code_uses = code_uses_of(self.text) if path.endswith(".rt") else {}
        self.items = {}
        (self.cut_logic if path.endswith(".antt") else self.cut_code)()

    def cut_logic(self):
        name, is_mutual, section = None, False, None
        for number, line in enumerate(self.lines):
            if not line.strip() or line.lstrip().startswith("--"):
                continue
            inside = len(line) - len(line.lstrip())
            if inside == 0:
                is_mutual = bool(re.match(r"(?:abbrev |pub |unfoldable )*mutual\b", line))
                # (what definitions share stands at the head of a section: it belongs to each of them)
                section = number if re.match(r"module\s", line) else None
                is_use = re.match(r"(?:pub )?(?:use|mod)\s", line)
                head = HEAD.match(line)
                name = None if is_mutual or section is not None or is_use else head[1] if head else name
            elif (is_mutual or section is not None) and inside == 2:
                head = HEAD.match(line.strip())
                name = head[1] if head else name
            if name:
                lines = self.items.setdefault(name, [] if section is None else [section])
                lines.append(number)

    def cut_code(self):
        for number, line in enumerate(self.lines):
            head = re.match(r"pub (?:struct|enum|trait) (\w+)|impl(?:<[^>]*>)? Model for (\w+)", line)
            if head:
                end = number
                while end + 1 < len(self.lines) and not re.match(r"\}|.*;\s*$" if end == number and line.rstrip().endswith(";") else r"\}", self.lines[end]):
                    if line.rstrip().endswith(";"):
                        break
                    end += 1
                name = head[1] or head[2]
                self.items.setdefault(name, []).extend(it for it in range(number, end + 1) if self.lines[it].strip() and not self.lines[it].lstrip().startswith("//"))


def all_files():
    found = {}
    for crate in sorted(os.listdir(CRATES)):
        for part in ("specs", "src"):
            for at, _, names in os.walk(os.path.join(CRATES, crate, part)):
                for name in names:
                    if name.endswith((".antt", ".rt")):
                        file = File(crate, os.path.join(at, name))
                        found[file.short] = file
    return found


FILES = all_files()
RUN_FILE = "fx_cli/src/lib"
CODE = {}
for short, file in FILES.items():
    if file.path.endswith(".rt"):
        for name in file.items:
            CODE.setdefault((file.crate, name), short)


def code_of(crate, name):
    """Returns the file in which an item of a crate's code stands, which the crate may pass on from another."""
    while (crate, name) not in CODE and f"{crate}/src/lib" in FILES:
        passed, name = FILES[f"{crate}/src/lib"].code_uses.get(name, (None, name))
        if passed in (None, crate):
            return None
        crate = passed
    return CODE.get((crate, name))


def is_plain(short):
    """Says whether a file tells what something is, and not only how data of a recursive type is numbered and gets smaller."""
    return not short.endswith(("Code", "Falls"))


def place_of(path):
    """Returns the file and the item that a path of the logic names, if it is of the repository."""
    parts = path.split(".")
    if parts[0] != "Rattle" or len(parts) < 4 or not os.path.isdir(os.path.join(CRATES, parts[1])):
        return None
    crate, part, rest = parts[1], parts[2], parts[3:]
    if part != "specs":
        return None
    # (a crate may pass on the definitions of another, under a name that stands in its list of modules)
    passed = FILES[f"{crate}/specs/Lib"].uses.get(rest[0]) if f"{crate}/specs/Lib" in FILES else None
    if passed:
        return place_of(".".join([passed, *rest[1:]]))
    if rest[0] in ("declared", "contracts"):
        rest = [it for it in rest[1:] if it not in ("TheVariants", "the_row")]
        for at in range(len(rest), 0, -1):
            for short in ("/".join([crate, "src", *rest[:at]]), "/".join([crate, "src", "lib"])):
                if short in FILES:
                    name = rest[at] if short.endswith(rest[at - 1]) and at < len(rest) else next((it for it in rest if it in FILES[short].items), None)
                    if name in FILES[short].items:
                        return short, name
        return None
    for at in range(len(rest), 0, -1):
        short = "/".join([crate, "specs", *rest[:at]])
        if short in FILES:
            return (short, rest[at]) if at < len(rest) else (short, None)
    return None


class Reach:
    """The definitions that are reached from some on, without those that aren't opened."""

    def __init__(self, roots, closed=()):
        self.closed = {it for name in closed for it in places_called(name)}
        self.seen = set()
        for root in roots:
            if root == RUN:
                self.follow(FILES[RUN_FILE], contract_of_run())
            else:
                for it in places_called(root):
                    self.reach(*it)

    def reach(self, short, name):
        file = FILES[short]
        if name in file.items and (short, name) not in self.seen and (short, name) not in self.closed:
            self.seen.add((short, name))
            self.follow(file, "\n".join(file.lines[it] for it in file.items[name]))

    def follow(self, file, text):
        is_code = file.path.endswith(".rt")
        for word in NAME.findall(re.sub(r'"[^"]*"', "", text)):
            first, _, rest = word.partition(".")
            if first in file.items and not is_code:
                self.reach(file.short, first)
            if first in file.code_uses:
                crate, name = file.code_uses[first]
                short = code_of(file.crate if crate == "crate" else crate, name)
                if short:
                    self.reach(short, name)
            elif first in file.items and is_code:
                self.reach(file.short, first)
            if first in file.uses:
                place = place_of(file.uses[first])
                if place and (place[1] or rest):
                    self.reach(place[0], place[1] or rest.split(".")[0])

    def lines(self):
        """Returns for each file the numbers of the lines that are reached."""
        lines = {}
        for short, name in self.seen:
            if is_plain(short) and short != RUN_FILE:
                lines.setdefault(short, set()).update(FILES[short].items[name])
        return lines


def places_called(name):
    """Returns the files and items that are called so: CRATE.NAME."""
    crate, _, item = name.partition(".")
    places = [(short, item) for short, file in FILES.items() if file.crate == crate and item in file.items]
    return places or sys.exit(f"no definition is called {name}")


def contract_of_run():
    lines = FILES[RUN_FILE].lines
    start = next(it for it, line in enumerate(lines) if line.startswith("pub fn run<"))
    return "\n".join(lines[start:lines.index("{", start)])


def about_of(short, reached):
    """Returns what a file says at its head that it defines, in a sentence, and which types of it are reached."""
    file = FILES[short]
    head = re.match(r"(?:(?:--|//[!/]?).*\n)+", file.text)
    said = " ".join(re.sub(r"^(?:--|//[!/]?) ?", "", it) for it in head[0].splitlines()) if head else ""
    said = re.match(r".*?[.](?= [A-Z]|$)|.*", said)[0]
    if file.path.endswith(".rt"):
        types = [name for name, lines in file.items.items() if reached & set(lines)]
        said = " ".join(filter(None, [said, ", ".join(f"`{it}`" for it in types) + "."]))
    return said


def path_of(short):
    return os.path.relpath(FILES[short].path, CRATES)


def minutes(lines):
    return math.ceil(lines / 15)


def cut_into_parts():
    """Returns for each part the lines of each file that it has and no part before it."""
    taken, parts = {}, []
    for at, (_, roots, _) in enumerate(PARTS):
        reached = Reach(roots, [name for _, names, _ in PARTS[at + 1:] for name in names])
        parts.append({short: left for short, lines in reached.lines().items() if (left := lines - taken.get(short, set()))})
        for short, lines in parts[-1].items():
            taken.setdefault(short, set()).update(lines)
    return parts


def cut_into_steps(part):
    """Returns for each step the files of a part that it has."""
    taken, steps = set(), []
    for _, crates, _ in STEPS:
        files = [it for crate in crates for it in sorted(part) if it == crate or it.startswith(crate + "/") or ("/" in crate and it.startswith(crate))]
        steps.append([it for it in dict.fromkeys(files) if it not in taken])
        taken.update(files)
    if set(part) - taken:
        sys.exit(f"no step has {', '.join(sorted(set(part) - taken))}")
    return steps


def rows_of(parts, at):
    """Yields the rows of a part's table: each step with its crates, and the files of each. What a step is about stands where most of it is."""
    part = parts[at]
    for step, files in enumerate(cut_into_steps(part)):
        title, _, words = STEPS[step]
        sizes = [count(it, cut_into_steps(it)[step]) for it in parts]
        if files:
            yield f"| **{title}** | {words if sizes[at] == max(sizes) else ''} | | |"
        for crate in dict.fromkeys(FILES[it].crate for it in files):
            of_crate = [it for it in files if FILES[it].crate == crate]
            named = ", ".join(f"`{name_of(it)}` {len(part[it])}" for it in of_crate)
            yield f"| `{crate}` | {named} | {count(part, of_crate):,} | {minutes(count(part, of_crate))} |"


def name_of(short):
    """Returns a file's name in its crate: without the folder, and definitions without the ending."""
    return path_of(short).split("/", 2)[2].removesuffix(".antt")


def count(part, files):
    return sum(len(part[it]) for it in files)


def claim_rows(lines):
    for claim, files in CLAIMS:
        for it in files:
            if it != RUN and it not in lines:
                sys.exit(f"run doesn't reach {it}")
        read = sum(contract_of_run().count("\n") + 1 if it == RUN else len(lines[it]) for it in files)
        named = ", ".join("the clauses of `run` in `fx_cli/src/lib.rt`" if it == RUN else f"`{path_of(it)}`" for it in files)
        yield f"| {claim} | {named} | {read} | {minutes(read)} |"


def tables():
    parts = cut_into_parts()
    own = contract_of_run().count("\n") + 1
    whole = Reach([name for _, names, _ in PARTS[:3] for name in names]).lines()
    yield "| To judge that | Read | Lines | Minutes |\n|---|---|---|---|"
    yield from claim_rows(whole)
    yield "\n| Part | Files | Lines | Minutes |\n|---|---|---|---|"
    sums = [count(it, it) for it in parts]
    sums[0] += own
    for at, (title, _, _) in enumerate(PARTS):
        yield f"| {at + 1}. {title} | {len(parts[at])} | {sums[at]:,} | {minutes(sums[at])} |"
        if at == 2:
            yield f"| The theorem | {len(whole)} | {sum(sums[:3]):,} | {minutes(sum(sums[:3]))} |"
    for at, (title, _, words) in enumerate(PARTS):
        yield f"\n### {at + 1}. {title}\n\n{words}\n"
        yield "| Crate | Files, with the lines that are reached of each | Lines | Minutes |\n|---|---|---|---|"
        if at == 0:
            yield f"| `fx_cli` | `lib.rt` {own}: the clauses of `run`, to be read first, and once more at the end | {own} | {minutes(own)} |"
        yield from rows_of(parts, at)


def write_tables():
    page = os.path.join(TOP, "docs", "READING.md")
    front, mark, _ = text_of(page).partition("\n## The tables\n")
    made = front + mark + "\n" + "\n".join(tables()) + "\n"
    with open(page, "w", encoding="utf-8") as file:
        file.write(made)


def names_behind(words, flag):
    return words[words.index(flag) + 1].split(",") if flag in words else []


def main(words):
    if "--tables" in words:
        return write_tables()
    roots = names_behind(words, "--from") or [*PARTS[0][1], "row_keeper.Keeper"]
    lines = Reach(roots, names_behind(words, "--stop")).lines()
    for short, reached in sorted(lines.items()):
        print(f"{len(reached):5} of {len(FILES[short].lines) - 1:5}  {path_of(short)}  {about_of(short, reached)}")
    print(f"{sum(map(len, lines.values()))} lines in {len(lines)} files")


main(sys.argv[1:])
