// What a patron asks for while signed in: once the patron signs out nothing of it is left, and no answer is shown to whoever comes next.

import { Door, askUntilAnswered, newKey } from "./asking.js";

const CARD = "circ.card";

export class SignedIn {
  // `unknown` is called each time that no answer came.
  constructor(card, unknown, storage = sessionStorage) {
    Object.assign(this, { card, unknown, storage });
    this.door = new Door("patron", storage);
    this.leaving = new AbortController();
    storage.setItem(CARD, JSON.stringify(card));
  }

  // Whoever was signed in when the tab was loaded anew; null where nobody was.
  static before(unknown, storage = sessionStorage) {
    const text = storage.getItem(CARD);
    return text === null ? null : new SignedIn(JSON.parse(text), unknown, storage);
  }

  request(method, path, body) {
    return { method, path: `/patrons/${this.card.number}${path}`, keyField: "Card-Key", keyValue: this.card.key, body };
  }

  // The answer with the patron's page; null once the patron has signed out.
  look() {
    return askUntilAnswered(this.request("GET", ""), this.unknown, { signal: this.leaving.signal });
  }

  // Sends what is to be done once; null where another one is on its way, or the patron has signed out.
  act(path, body) {
    return this.door.ask({ ...this.request("POST", path, body), requestKey: newKey() }, this.unknown);
  }

  // What was on its way when the tab was loaded anew is sent again, under its key; null where there is nothing.
  actBefore() {
    const left = this.door.left();
    return left && this.door.ask(left, this.unknown);
  }

  // Forgets everything; whether something was on its way, of which it isn't known then whether it was done.
  signOut() {
    this.leaving.abort();
    const wasBusy = this.door.leave();
    this.storage.clear();
    return wasBusy;
  }
}
