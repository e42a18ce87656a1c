// A view of an app as a page that is patched in place, so that focus, caret and presses stay. It knows nothing of the
// numbers of requests: those are talk.js's.

import { Talk } from "./talk.js";

const PAGE = 100; // items of a gallery that the server shows at once
const ERRORS = {
  Div0: "division by zero",
  Numeric: "a number out of range",
  InvalidArgument: "a value that can't be used here",
  QuotaExceeded: "too much to be kept",
  NotFound: "not found",
  MissingRequired: "a value is missing that is required",
  ConstraintViolated: "another row has this value",
  Validation: "not valid",
  Custom: "",
};
const STARTED_ANEW = "The server was started anew. Saved rows are there; what you entered before may have to be entered again.";

let count = 0;
const newId = () => `it-${++count}`;
const seconds = Number(document.querySelector("meta[name=seconds-between-views]").content);
const heading = document.getElementById("screen");
const main = document.getElementById("controls");

const isError = (value) => value?.e !== undefined;
const quoted = (name) => `“${name}”`;

function errorWords({ kind, message }) {
  const known = ERRORS[kind];
  return known && message ? `${known} (${message})` : known || message || "an error";
}

/** A value as it is read. A number that isn't whole stays the text that it is, since a number of JavaScript would lose places. */
function words(value) {
  if (isError(value)) return `⚠ ${errorWords(value.e)}`;
  return String(value?.n ?? value?.d ?? value ?? "");
}

function make(name, properties = {}, ...children) {
  const node = Object.assign(document.createElement(name), properties);
  node.append(...children);
  return node;
}

function write(node, value) {
  const text = words(value);
  if (node.textContent !== text) node.textContent = text;
  node.classList.toggle("error", isError(value));
}

/** The parts below a node, each under a key: a part stays as long as its key does, and moves only where its place is wrong. */
class Parts {
  #node;
  #parts = new Map();

  constructor(node) {
    this.#node = node;
  }

  /** Shows a list, whose parts have `node`, `show(it)` and perhaps `gone()`. */
  show(list, keyOf, makePart) {
    const shown = new Map(list.map((it) => [keyOf(it), it]));
    for (const [key, part] of this.#parts) {
      if (!shown.has(key)) this.#remove(key, part);
    }
    let next = this.#node.firstChild;
    for (const [key, it] of shown) {
      const part = this.#parts.get(key) ?? makePart(it);
      this.#parts.set(key, part);
      part.show(it);
      if (part.node === next) next = next.nextSibling;
      else this.#node.insertBefore(part.node, next);
    }
  }

  clear() {
    for (const [key, part] of this.#parts) this.#remove(key, part);
  }

  #remove(key, part) {
    this.#parts.delete(key);
    part.gone?.();
    part.node.remove();
  }
}

/** What formulas read, as far as it says what can be pressed and chosen. */
class Reads {
  #cells = [];

  take(cells) {
    this.#cells = cells ?? this.#cells;
  }

  canPress(name) {
    const spelt = /[.']/.test(name) ? `'${name.replaceAll("'", "''")}'` : name;
    return this.#cells.some((it) => it.cell === `${spelt}.OnSelect`);
  }

  canChoose(gallery) {
    return this.canPress(gallery) || this.#cells.some((it) => it.reads.includes(`chosen ${gallery}`));
  }
}

const reads = new Reads();
const fields = new Set();
const chosen = new Map(); // from galleries to the items that this page chose
const firsts = new Map(); // from galleries to the places of the first items that are shown

// ---- Messages

function tell(place, text) {
  const box = document.getElementById(place);
  if ([...box.children].some((it) => it.firstChild.textContent === text)) return;
  const close = make("button", { type: "button", textContent: "×", ariaLabel: "Close", onclick: () => box.removeChild(message) });
  const message = make("div", { className: "message" }, make("span", { textContent: text }), close);
  whenFree(() => box.append(message));
}

function clear(...places) {
  for (const it of places) document.getElementById(it).replaceChildren();
}

// While a pointer is down nothing moves below it, or the click would miss what was pressed.
let isHeld = false;
let held = [];
const whenFree = (work) => (isHeld ? held.push(work) : work());
function release() {
  isHeld = false;
  for (const it of held.splice(0)) it();
}
addEventListener("pointerdown", () => (isHeld = true), true);
for (const it of ["pointerup", "pointercancel"]) addEventListener(it, () => setTimeout(release, 50), true);

// ---- The session

const talk = new Talk({
  connected: () => clear("connection"),
  lost: () => tell("connection", "No answer from the server. It is asked again until one comes."),
  opened: async () => {
    chosen.clear();
    reads.take(await talk.graph());
    await refresh();
  },
  renewed: (lost) => {
    tell("refusals", STARTED_ANEW);
    if (lost) tell("refusals", `Whether ${quoted(lost)} was done isn't known: look before you do it again.`);
  },
  done: (what, { notices, value }) => {
    for (const it of notices) tell("notices", it);
    if (isError(value)) tell("refusals", `${quoted(what)} ended with an error: ${errorWords(value.e)}.`);
  },
  failed: async (what, refusal) => {
    tell("refusals", what ? `${quoted(what)}: ${refusal.message}` : refusal.message);
    if (refusal.code === 15) reads.take(await talk.graph());
  },
  dropped: (names) => tell("refusals", `Not done: ${names.map(quoted).join(", ")}.`),
  rested: () => refresh(),
});

let asked = 0; // how many views were asked for: only the latest is shown
async function refresh() {
  const mine = ++asked;
  const view = await talk.read("view");
  if (!view) return;
  for (const it of view.controls) {
    if (it.kind === "Gallery" && !(await turn(it))) return;
  }
  whenFree(() => mine === asked && show(view));
}

/** Puts the page of items that the user turned to in the place of the first ones. */
async function turn(gallery) {
  const first = firsts.get(gallery.name) ?? 1;
  gallery.first = first > gallery.total ? 1 : first;
  if (gallery.first === 1) return true;
  const more = await talk.read(`items/${encodeURIComponent(gallery.name)}/${gallery.first}`);
  if (more) Object.assign(gallery, more);
  return more !== null;
}

/** Presses a control, for an item or for none. What is typed and not taken yet goes first. */
function press(name, button, item) {
  if (button.ariaDisabled === "true") return;
  clear("notices", "refusals");
  for (const it of fields) it.send();
  button.ariaDisabled = "true";
  const place = item && { at: item.at, id: item.id };
  talk.act({
    what: button.textContent || name,
    path: "event",
    fields: () => ({ control: name, event: "OnSelect", ...(item && { item: place }) }),
    done: () => item && chosen.set(item.gallery, place),
    ended: () => button.removeAttribute("aria-disabled"),
  });
}

// ---- Controls

function label(name, item) {
  const node = make("p", { id: newId() });
  let face = node;
  const target = reads.canPress(name) ? name : item?.choosesBy(name) ? item.gallery : null;
  if (target) {
    face = make("button", { type: "button", className: "plain", onclick: () => press(target, face, item) });
    node.append(face);
  }
  return { node, show: ({ values }) => write(face, values.Text) };
}

function button(name, item) {
  const node = make("button", { type: "button", onclick: () => press(name, node, item) });
  const show = ({ values }) => {
    write(node, values.Text);
    if (node.textContent) node.removeAttribute("aria-label");
    else node.ariaLabel = name;
  };
  return { node, show };
}

/** A control that takes what a user gives. While it holds what isn't taken yet, views don't write into it. */
class Field {
  #hint = make("p", { id: newId(), className: "error", hidden: true });
  #refusal = null;
  isChanged = false;

  /** `given()` is what is sent, or undefined where there is nothing that could be; `keeps`: also what was refused stays. */
  constructor(name, input, { given, write, keeps = true }) {
    Object.assign(this, { name, input, write });
    input.setAttribute("aria-describedby", this.#hint.id);
    let sent;
    this.job = {
      what: name,
      path: "input",
      isKept: true,
      fields: () => {
        const value = given();
        if (!this.isChanged || value === undefined) return null;
        sent = this.#state();
        return { control: name, value };
      },
      done: () => {
        this.#refusal = null;
        this.isChanged &&= this.#state() !== sent;
      },
      refused: (refusal) => {
        this.isChanged &&= keeps;
        if (refusal.code !== 20) return false;
        this.#refusal = refusal.message;
        this.#tell(null);
        return true;
      },
    };
    fields.add(this);
  }

  part(node) {
    node.append(this.#hint);
    return { node, show: (it) => this.show(it.values), gone: () => fields.delete(this) };
  }

  change() {
    this.isChanged = true;
  }

  /** Sends what isn't taken yet. What waits already reads the field only as its turn comes. */
  send() {
    if (this.isChanged && !talk.isWaiting(this.job)) talk.act(this.job);
  }

  show(values) {
    this.write(values, this.isChanged);
    this.#tell(Object.values(values).find(isError) ?? null);
  }

  #state() {
    return this.input.type === "checkbox" ? this.input.checked : this.input.value;
  }

  #tell(error) {
    write(this.#hint, this.#refusal ?? error);
    this.#hint.classList.add("error");
    this.#hint.hidden = !this.#hint.textContent;
    this.input.ariaInvalid = String(this.#refusal !== null);
  }
}

function labelled(name, input, ...beside) {
  input.id = newId();
  return make("div", { className: "field" }, make("label", { htmlFor: input.id, textContent: name }), ...beside);
}

function textInput(name) {
  const input = make("input", { type: "text", autocomplete: "off" });
  const field = new Field(name, input, {
    given: () => input.value.toWellFormed(),
    write: ({ Text }, isChanged) => {
      const text = isError(Text) ? "" : words(Text);
      if (!isChanged && input.value !== text) input.value = text;
    },
  });
  input.oninput = () => field.change();
  input.onchange = () => field.send();
  input.onkeydown = ({ key }) => {
    if (key === "Enter") field.send(); // (a handler that answers false would take the key away)
  };
  return field.part(labelled(name, input, input));
}

const places = (text) => (text.split(".")[1] ?? "").length;

function slider(name) {
  const input = make("input", { type: "range" });
  const output = make("output");
  const field = new Field(name, input, {
    keeps: false,
    given: () => ({ n: input.value }),
    write: ({ Min, Max, Value }, isChanged) => {
      input.disabled = isError(Min) || isError(Max);
      if (isChanged || input.disabled) return write(output, isChanged ? input.value : Value);
      const [min, max, value] = [Min, Max, Value].map((it) => (isError(it) ? "0" : words(it) || "0"));
      const finest = Math.max(...[min, max, value].map(places));
      Object.assign(input, { min, max, step: (10 ** -finest).toFixed(finest), value });
      write(output, Value);
    },
  });
  input.oninput = () => {
    field.change();
    write(output, input.value);
  };
  input.onchange = () => field.send();
  const node = labelled(name, input, make("div", { className: "row" }, input, output));
  output.htmlFor = input.id;
  return field.part(node);
}

function checkbox(name) {
  const input = make("input", { type: "checkbox", id: newId() });
  const text = make("label", { htmlFor: input.id });
  const field = new Field(name, input, {
    keeps: false,
    given: () => input.checked,
    write: ({ Text, Value }, isChanged) => {
      write(text, words(Text) ? Text : name);
      if (!isChanged) input.checked = Value === true;
    },
  });
  input.onchange = () => {
    field.change();
    field.send();
  };
  return field.part(make("div", { className: "field" }, make("div", { className: "check" }, input, text)));
}

function datePicker(name) {
  const input = make("input", { type: "date", min: "1900-01-01", max: "9999-12-31" });
  let clock;
  const field = new Field(name, input, {
    given: () => (input.validity.badInput ? undefined : input.value ? { d: input.value } : null),
    write: ({ SelectedDate }, isChanged) => {
      const day = isError(SelectedDate) ? "" : words(SelectedDate);
      if (!isChanged && input.value !== day) input.value = day;
    },
  });
  // By keyboard each digit can make another date.
  input.oninput = () => {
    field.change();
    clearTimeout(clock);
    clock = setTimeout(() => field.send(), 1_500);
  };
  input.onblur = () => field.send();
  return field.part(labelled(name, input, input));
}

function gallery(name) {
  const list = make("ul");
  const total = make("p", { className: "quiet" });
  const turnBy = (by) => () => {
    firsts.set(name, Math.max(1, (firsts.get(name) ?? 1) + by));
    refresh();
  };
  const back = make("button", { type: "button", textContent: "Previous", onclick: turnBy(-PAGE) });
  const on = make("button", { type: "button", textContent: "Next", onclick: turnBy(PAGE) });
  const pages = make("div", { className: "row" }, back, on);
  const title = make("h2", { id: newId(), textContent: name });
  const node = make("section", {}, title, list, total, pages);
  node.setAttribute("aria-labelledby", title.id);
  const parts = new Parts(list);
  const show = ({ items, total: all, first }) => {
    if (isError(items)) {
      parts.clear();
      pages.hidden = true;
      return write(total, items);
    }
    firsts.set(name, first);
    const seen = new Map();
    const keyed = items.map((it) => {
      const row = it.id ?? `at ${it.at}`;
      seen.set(row, (seen.get(row) ?? 0) + 1);
      return { ...it, key: `${row} ${seen.get(row)} ${reads.canChoose(name)}` };
    });
    parts.show(keyed, (it) => it.key, () => galleryItem(name));
    const range = all > PAGE ? `, ${first} to ${first + items.length - 1} are shown` : "";
    write(total, `${all} ${all === 1 ? "row" : "rows"}${range}`);
    pages.hidden = all <= PAGE;
    back.disabled = first === 1;
    on.disabled = first + PAGE > all;
  };
  return { node, show, gone: () => firsts.delete(name) };
}

/** An item of a gallery, which knows where it was shown last, and whether a label chooses it: the first that does nothing else. */
function galleryItem(name) {
  const choose = make("button", { type: "button", textContent: "Choose", onclick: () => press(name, choose, item) });
  const node = make("li", {}, choose);
  const parts = new Parts(node);
  let first = null;
  const choosesBy = (label) => label === first && reads.canChoose(name);
  const item = { gallery: name, at: 0, id: null, choosesBy };
  const show = ({ at, id, controls }) => {
    Object.assign(item, { at, id });
    first = controls.find((it) => it.kind === "Label" && !reads.canPress(it.name))?.name ?? null;
    showControls(parts, controls, item);
    choose.hidden = first !== null || !reads.canChoose(name);
    const title = node.querySelector("p");
    if (title) node.querySelectorAll("li > button").forEach((it) => it.setAttribute("aria-describedby", title.id));
    const mine = chosen.get(name);
    const isMine = reads.canChoose(name) && mine !== undefined && (mine.id === null ? mine.at === at : mine.id === id);
    if (isMine) node.setAttribute("aria-current", "true");
    else node.removeAttribute("aria-current");
  };
  return { node, show };
}

const MAKERS = { Label: label, Button: button, TextInput: textInput, Slider: slider, Checkbox: checkbox, DatePicker: datePicker, Gallery: gallery };

function showControls(parts, controls, item = null) {
  const keyOf = ({ name }) => `${name} ${reads.canPress(name)} ${item?.choosesBy(name) ?? false}`;
  parts.show(controls, keyOf, ({ kind, name }) => MAKERS[kind](name, item));
}

// ---- The page

const all = new Parts(main);
let screen = null;

function show(view) {
  const hadFocus = main.contains(document.activeElement);
  const isOther = screen !== null && screen !== view.screen;
  if (isOther) all.clear();
  if (screen !== view.screen) heading.textContent = document.title = screen = view.screen;
  showControls(all, view.controls);
  if (isOther || (hadFocus && !main.contains(document.activeElement))) heading.focus();
}

async function poll() {
  for (let turns = 1; ; turns++) {
    await new Promise((wake) => setTimeout(wake, seconds * 1_000 * (0.8 + 0.4 * Math.random())));
    if (document.hidden || !talk.isOpen) continue;
    if (turns % 12 === 0) reads.take(await talk.graph());
    await refresh();
  }
}

document.addEventListener("visibilitychange", () => !document.hidden && talk.isOpen && refresh());
await talk.open();
poll();
