// What waits to be sent: taken at once, sent one after another in its order, none dropped and none merged. What doesn't succeed stops the queue, and the
// clerk says how it goes on. It is kept for the session of the tab, so that a tab that is loaded anew goes on with it.

import { APART } from "./clicks.js";

export class Queue {
  // `handle` sends an item and says how it ended: "done"; "stop"; "told", which stops only where others wait; or "again" where the item stays, to be sent again
  // under its key. `changed` shows the queue, `form` makes of a waiting item what is kept of it, and `kept` has all of them each time.
  constructor(handle, changed, { storage, name = "circ.queue", form = (item) => item, kept = () => {} }) {
    Object.assign(this, { handle, changed, storage, name, form, kept });
    const left = JSON.parse(storage.getItem(name) ?? "{}");
    this.current = null;
    this.held = left.held ?? null;
    this.isStopped = left.isStopped ?? false;
    // what stopped the queue and isn't to be sent again here
    this.refused = null;
    this.stoppedAt = -Infinity;
    this.waiting = [...(left.current ? [left.current] : []), ...(left.waiting ?? [])];
  }

  // Whether what stopped the queue was on the screen long enough for the clerk to have seen it.
  isSeen(now = performance.now()) {
    return now - this.stoppedAt > APART;
  }

  // Whether nothing is sent, nothing waits, and nothing is to be sent again.
  get isEmpty() {
    return this.current === null && this.held === null && this.waiting.length === 0;
  }

  // Takes over what waited elsewhere: it is sent once the clerk says so.
  takeOver(items) {
    if (items.length === 0) return;
    this.waiting = [...items, ...this.waiting];
    this.isStopped = true;
    this.show();
  }

  add(item) {
    this.waiting.push(item);
    this.run();
  }

  // Sends what waits, without the item that stopped the queue.
  sendOn() {
    this.held = null;
    this.isStopped = false;
    this.run();
  }

  // Sends the item that stopped the queue again, now by the clerk's word, and then what waits.
  sendAgain() {
    if (this.held) this.waiting.unshift({ ...this.held, isConfirmed: true });
    this.sendOn();
  }

  throwAway() {
    this.waiting = [];
    this.sendOn();
  }

  // Nothing more is sent, shown or kept.
  end() {
    this.kept([]);
    this.close();
  }

  // Nothing more is sent or shown, and what waits stays kept, with what stopped the queue before it; whether anything does.
  leave() {
    if (this.isStopped && this.refused !== null) this.waiting.unshift(this.refused);
    const isKept = !this.isEmpty;
    this.keep();
    this.close();
    return isKept;
  }

  // An answer that still comes changes nothing.
  close() {
    this.waiting = [];
    this.held = null;
    this.isStopped = true;
    this.changed = () => {};
    this.keep = () => {};
    this.storage.removeItem(this.name);
  }

  keep() {
    const { current, held, isStopped } = this;
    this.storage.setItem(this.name, JSON.stringify({ current, held, isStopped, waiting: this.waiting.map(this.form) }));
    this.kept([held, current, ...this.waiting].filter((item) => item !== null).map(this.form));
  }

  show() {
    this.keep();
    this.changed();
  }

  async run() {
    if (this.current || this.isStopped || this.waiting.length === 0) return this.show();
    this.current = this.waiting.shift();
    this.show();
    let outcome = "again";
    try {
      outcome = await this.handle(this.current);
    } finally {
      this.isStopped ||= outcome === "stop" || outcome === "again" || (outcome === "told" && this.waiting.length > 0);
      this.held = outcome === "again" ? this.current : null;
      this.refused = this.isStopped && outcome !== "again" ? this.current : null;
      this.stoppedAt = performance.now();
      this.current = null;
    }
    return this.run();
  }
}
