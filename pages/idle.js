// Tells when nobody has been at a page for some minutes. When somebody last was is kept for the session of the tab, so that a tab that is loaded anew goes on counting.

import { IDLE_MINUTES } from "./texts.js";

const SEEN = "circ.seen";
const SECOND = 1000;
const MINUTE = 60_000;
const SIGNS = ["keydown", "pointerdown", "pointermove", "wheel"];

export class Idle {
  // `left` is called each time that so many minutes are over; with 0 minutes it never is. By the clock, and not by a timer of ten minutes, which would stand still while the machine sleeps.
  constructor(left, { minutes = IDLE_MINUTES, storage = sessionStorage, page = document, now = () => Date.now(), every = SECOND } = {}) {
    Object.assign(this, { left, minutes, storage, now, every, timer: null });
    for (const sign of SIGNS) page.addEventListener(sign, () => this.seen(), { capture: true, passive: true });
  }

  // How many milliseconds ago somebody was there.
  get since() {
    return this.now() - Number(this.storage.getItem(SEEN));
  }

  // Begins to count, from when somebody was there in this tab, or else from now.
  begin() {
    this.end();
    if (this.storage.getItem(SEEN) === null) this.note();
    this.timer = setInterval(() => this.look(), this.every);
    this.look();
  }

  // Begins to count from now.
  renew() {
    this.note();
    this.begin();
  }

  end() {
    clearInterval(this.timer);
    this.timer = null;
  }

  note() {
    this.storage.setItem(SEEN, String(this.now()));
  }

  // Whoever does something once the minutes are over comes too late.
  seen() {
    if (this.look() || this.timer === null || this.since < SECOND) return;
    this.note();
  }

  // Whether the minutes are over just now.
  look() {
    const isOver = this.timer !== null && this.minutes > 0 && this.since >= this.minutes * MINUTE;
    if (!isOver) return false;
    this.end();
    this.left();
    return true;
  }
}
