// Requests to the desk: each has a key that is made before it is sent, and where no answer comes it is sent again under the same key.

import { readAnswer } from "./replies.js";

const LETTERS = "abcdefghijklmnopqrstuvwxyz0123456789";
const PAUSES = [1000, 2000, 4000, 8000];
// by these a reverse proxy says that no answer of the desk's came
const NO_ANSWER = [502, 503, 504];

// A key that no other request has.
export function newKey() {
  return Array.from(crypto.getRandomValues(new Uint8Array(24)), (byte) => LETTERS[byte % LETTERS.length]).join("");
}

// The status and the body that came, or null where none did.
async function fetched({ method, path, keyField, keyValue, requestKey, body }, signal) {
  const headers = { [keyField]: keyValue };
  if (requestKey) headers["Request-Key"] = requestKey;
  try {
    const answer = await fetch(path, { method, headers, body, signal, cache: "no-store" });
    return { status: answer.status, body: await answer.text() };
  } catch {
    return null;
  }
}

// Sends one request; its answer, or null where none came.
async function send(request, signal) {
  const came = await fetched(request, signal);
  const answer = came && readAnswer(came.status, came.body);
  return answer && NO_ANSWER.includes(answer.strange) ? null : answer;
}

// Waits for some milliseconds, or until the signal ends it.
function wait(milliseconds, signal) {
  return new Promise((done) => {
    const end = () => {
      clearTimeout(timer);
      signal?.removeEventListener("abort", end);
      done();
    };
    const timer = setTimeout(end, milliseconds);
    signal?.addEventListener("abort", end);
  });
}

// Sends a request until an answer comes, under the one key; null once the signal ends it. `unknown` is called each time that no answer came.
export async function askUntilAnswered(request, unknown, { signal, pauses = PAUSES } = {}) {
  for (let tries = 0; ; tries += 1) {
    const answer = await send(request, signal);
    if (signal?.aborted) return null;
    if (answer) return answer;
    unknown();
    await wait(pauses[Math.min(tries, pauses.length - 1)], signal);
    if (signal?.aborted) return null;
  }
}

// What is to be done once: while it is on its way nothing else is sent by this door, and what was on its way when the tab was
// loaded anew is sent again first, under its key. Whoever leaves takes it along.
export class Door {
  constructor(name, storage = sessionStorage) {
    this.name = `circ.${name}`;
    this.storage = storage;
    this.work = null;
  }

  get isBusy() {
    return this.work !== null;
  }

  // The request that had no answer yet, if there is one.
  left() {
    const text = this.storage.getItem(this.name);
    return text === null ? null : JSON.parse(text);
  }

  // Sends a request that has its key; null where another one is on its way, or the door is left before an answer.
  async ask(request, unknown, pauses) {
    if (this.isBusy) return null;
    const work = new AbortController();
    this.work = work;
    this.storage.setItem(this.name, JSON.stringify(request));
    const answer = await askUntilAnswered(request, unknown, { signal: work.signal, pauses });
    if (this.work === work) this.forget();
    return answer;
  }

  forget() {
    this.work = null;
    this.storage.removeItem(this.name);
  }

  // Ends what is on its way, whose answer is unknown then; whether there was any.
  leave() {
    const wasBusy = this.isBusy;
    this.work?.abort();
    this.forget();
    return wasBusy;
  }
}
