// One session with the server: its name, the numbers of its requests, their order, and their repetition until an answer
// comes. It knows nothing of the page. A listener hears of what the page may have to tell.

const PATIENCE = 30_000; // milliseconds for one answer
const WAITS = [300, 1_000, 2_000, 4_000, 8_000, 15_000]; // milliseconds before each repetition; the last one stays
const UNCHANGED_TRIES = 3; // repetitions where the server says that nothing was changed
const HIGHEST = 4_294_967_295; // the highest number that a request may have

const SENTENCES = {
  4: "It is too long to be sent.",
  9: "It holds signs that can't be sent.",
  12: "Too many use this app now. It is tried again.",
  15: "The app was changed, and this isn't there any more.",
  16: "Nothing can be done with this.",
  17: "It isn't on the screen any more.",
  18: "This row isn't there any more.",
  19: "Another row stands there now. Look, and press again.",
  20: "It is too long, or out of bounds.",
  25: "The rows can't be read or written now. Nothing was changed; try again later.",
  26: "The server has no room now. Nothing was changed; try again later.",
  401: "You aren't signed in. Load the page anew.",
  403: "You may not do this.",
  413: "It is too long to be sent.",
};

/** What was sent wasn't done, for a reason of the server or of the proxy before it. */
export class Refused extends Error {
  constructor({ code, name = "refused by the proxy", detail = null }) {
    super(SENTENCES[code] ?? `Refused: ${code} ${name}. Load the page anew.`);
    Object.assign(this, { code, detail });
  }
}

/** No answer came, or none that the server gave: whether anything was done isn't known. */
class Lost extends Error {}

/** Asks once. */
async function ask(method, path, body) {
  const signal = AbortSignal.timeout(PATIENCE);
  const headers = body === undefined ? {} : { "Content-Type": "application/json" };
  const reply = await fetch(path, { method, body, headers, signal, cache: "no-store" }).catch(() => null);
  const said = await reply?.json().catch(() => null);
  if (said?.refused) throw new Refused(said.refused);
  if (said && reply.status === 200) return said;
  if ([401, 403, 413].includes(reply?.status)) throw new Refused({ code: reply.status });
  throw new Lost();
}

const about = (milliseconds) => milliseconds * (0.8 + 0.4 * Math.random());
const rest = (milliseconds) => new Promise((wake) => setTimeout(wake, about(milliseconds)));

// What a page keeps. Other sites of this host, in other folders, keep theirs under other keys.
const key = (word) => `pfx ${location.pathname} ${word}`;
const kept = {
  read: (word) => JSON.parse(sessionStorage.getItem(key(word))),
  write: (word, it) => sessionStorage.setItem(key(word), JSON.stringify(it)),
  drop: (word) => sessionStorage.removeItem(key(word)),
};
const names = {
  all: () => JSON.parse(localStorage.getItem(key("names"))) ?? [],
  add: (name) => localStorage.setItem(key("names"), JSON.stringify([...names.all(), name])),
  drop: (name) => localStorage.setItem(key("names"), JSON.stringify(names.all().filter((it) => it !== name))),
};

/** Takes a name for as long as this page lives, and says whether it was free. */
function hold(name) {
  if (!navigator.locks) return true;
  return new Promise((tell) => {
    navigator.locks.request(key(name), { ifAvailable: true }, (lock) => {
      tell(lock !== null);
      return lock && new Promise(() => {});
    });
  });
}

/** The name that this page had before it was loaded anew, if no other page has it: a doubled tab starts with a copy. */
async function ownName() {
  const name = kept.read("name");
  for (let tries = 0; name && tries < 5; tries++) {
    if (await hold(name)) return name;
    await rest(100);
  }
  kept.drop("request");
  return null;
}

/** The name of a page that was closed. Where the browser has no locks, nobody knows which these are. */
async function leftName() {
  for (const name of navigator.locks ? names.all() : []) {
    if (await hold(name)) return name;
  }
  return null;
}

async function newName() {
  const signs = "abcdefghijklmnopqrstuvwxyz0123456789";
  const name = Array.from(crypto.getRandomValues(new Uint32Array(10)), (it) => signs[it % 36]).join("");
  await hold(name);
  names.add(name);
  return name;
}

export class Talk {
  #listener;
  #name = null;
  #last = 0;
  #waiting = [];
  #isBusy = false;
  #acts = 0; // how many requests were sent: a view that was asked for before the latest one is old
  isOpen = false;

  /** The listener has `connected`, `lost`, `opened`, `renewed`, `done`, `failed`, `dropped` and `rested`. */
  constructor(listener) {
    this.#listener = listener;
  }

  /** Takes up the session that this page had, one that a closed page left, or a new one. */
  async open() {
    const own = await ownName();
    const name = own ?? (await leftName());
    const request = kept.read("request");
    const lives = name !== null && (await this.#takeUp(name));
    if (!lives) await this.#begin();
    this.isOpen = true;
    await this.#listener.opened();
    if (lives && request) await this.#finish(request);
    if (own && !lives) this.#listener.renewed(request?.what);
    this.#run();
  }

  /** Reads something of the session once. It is null where no answer came, or one that is old by now. */
  async read(path) {
    const acts = this.#acts;
    try {
      const reply = await ask("GET", `s/${this.#name}/${path}`);
      this.#listener.connected();
      return acts === this.#acts ? reply : null;
    } catch (error) {
      if (error instanceof Lost) this.#listener.lost();
      else if (error.code === 11) await this.#renewUnlessBusy();
      else if (error.code !== 15 && error.code !== 17) this.#listener.failed(null, error);
      return null;
    }
  }

  /** What each formula reads. */
  async graph() {
    return (await ask("GET", "graph").catch(() => null))?.cells ?? null;
  }

  /**
   * Puts a job into the queue: `what` it is called, the `path` that it goes to, `fields()` that are sent, which is asked
   * only as its turn comes (null: nothing is left to send), `done()`, `refused(refusal)`, which says whether it told of
   * it, and `ended()` however it ends. Where `isKept`, the page still has what wasn't sent, and sends it later.
   */
  act(job) {
    this.#waiting.push(job);
    this.#run();
  }

  isWaiting(job) {
    return this.#waiting.includes(job);
  }

  async #run() {
    if (this.#isBusy || !this.isOpen) return;
    this.#isBusy = true;
    for (let job; (job = this.#waiting.shift()); ) {
      const fields = job.fields();
      if (fields) await this.#perform(job, fields, this.#number(job, fields));
      job.ended?.();
    }
    this.#isBusy = false;
    this.#listener.rested();
  }

  /** Does what was sent before the page was loaded anew: it was done by then, or is done now. */
  async #finish(request) {
    this.#isBusy = true;
    request.wasLost = true;
    await this.#perform({ what: request.what, path: request.path }, request.fields, request);
    this.#isBusy = false;
  }

  #number({ what, path }, fields) {
    const seq = this.#last + 1;
    return { what, path, fields, seq, name: this.#name, body: JSON.stringify({ seq, ...fields }) };
  }

  async #perform(job, fields, request) {
    for (;;) {
      try {
        const reply = await this.#send(request);
        job.done?.();
        return this.#listener.done(job.what, reply);
      } catch (refusal) {
        if (!(refusal instanceof Refused)) throw refusal;
        if (!(await this.#takesAnotherNumber(refusal, request))) return this.#fail(job, refusal, request);
        request = this.#number(job, fields);
      }
    }
  }

  /** Takes the number that a refusal tells, and says whether the request wasn't done for want of it alone. */
  async #takesAnotherNumber({ code, detail }, { wasLost }) {
    if (code !== 13 && code !== 14) return false;
    const last = code === 13 ? detail : await this.#lastNumber().catch(() => null);
    this.#last = last ?? this.#last;
    return last !== null && (code === 14 || !wasLost);
  }

  async #fail(job, refusal, { wasLost }) {
    if (refusal.code === 11) return this.#renew(wasLost ? [] : [job], wasLost && !job.isKept ? job.what : undefined);
    if (refusal.code === 13) refusal.message = "Whether it was done isn't known: look before you do it again.";
    if (!job.refused?.(refusal)) this.#listener.failed(job.what, refusal);
    this.#drop([]);
  }

  /** Drops what waits behind a failed request: it would act on other values than its user saw. */
  #drop(jobs) {
    const dropped = this.#waiting.splice(0);
    dropped.forEach((it) => it.ended?.());
    const names = [...jobs, ...dropped].filter((it) => !it.isKept).map((it) => it.what);
    if (names.length) this.#listener.dropped(names);
  }

  /** Sends a request until it is answered, under the number that it has: sent twice, it is done once. */
  async #send(request) {
    kept.write("request", request);
    this.#acts++;
    try {
      for (let tries = 0; ; tries++) {
        try {
          const reply = await this.#untilAnswered("POST", `s/${request.name}/${request.path}`, request.body, request);
          this.#last = request.seq;
          return reply;
        } catch (refusal) {
          if (![25, 26].includes(refusal.code) || tries === UNCHANGED_TRIES) throw refusal;
          await rest(WAITS[tries]);
        }
      }
    } finally {
      kept.drop("request");
    }
  }

  async #untilAnswered(method, path, body, request = {}) {
    for (let tries = 0; ; tries++) {
      try {
        const reply = await ask(method, path, body);
        this.#listener.connected();
        return reply;
      } catch (error) {
        if (error instanceof Refused) {
          this.#listener.connected();
          throw error;
        }
        request.wasLost = true;
        this.#listener.lost();
        await rest(WAITS[Math.min(tries, WAITS.length - 1)]);
      }
    }
  }

  /** Asks for the last number by a request that can't act: no control has an empty name. */
  async #lastNumber() {
    const probe = JSON.stringify({ seq: HIGHEST, control: "", event: "OnSelect" });
    try {
      await this.#untilAnswered("POST", `s/${this.#name}/event`, probe);
    } catch (refusal) {
      if (refusal.code === 13) return refusal.detail;
      throw refusal;
    }
  }

  /** Takes up the session of this name, if it lives. */
  async #takeUp(name) {
    this.#name = name;
    try {
      this.#last = await this.#lastNumber();
    } catch {
      this.#forget();
      return false;
    }
    kept.write("name", name);
    return true;
  }

  /** Opens a session under a new name, as soon as the server has room for it. */
  async #begin() {
    this.#name = await newName();
    this.#last = 0;
    for (;;) {
      try {
        await this.#untilAnswered("PUT", `s/${this.#name}`);
        return kept.write("name", this.#name);
      } catch (refusal) {
        this.#listener.failed(null, refusal);
        await rest(5_000);
      }
    }
  }

  /** A name that has gone is never used again, so that a late repetition can't act in a session that began anew. */
  #forget() {
    names.drop(this.#name);
    kept.drop("name");
    kept.drop("request");
  }

  /** Opens a new session in the place of one that has gone, and says what wasn't done and what nobody knows of. */
  async #renew(jobs, lost) {
    this.isOpen = false;
    this.#forget();
    await this.#begin();
    this.isOpen = true;
    this.#listener.renewed(lost);
    this.#drop(jobs);
    await this.#listener.opened();
  }

  async #renewUnlessBusy() {
    if (this.#isBusy || !this.isOpen) return;
    await this.#renew([], undefined);
    this.#run();
  }
}
