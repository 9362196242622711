// Whose turn it is at the desk: the mode, the patron for whom scans are taken, and a key by which what was scanned in one turn is told from another's. It is kept for the session of
// the tab, so that a tab that is loaded anew goes on with it.

import { newKey } from "./asking.js";

const TURN = "circ.turn";

export class Turn {
  constructor(storage) {
    const { mode = "check-out", patron = null, key = newKey() } = JSON.parse(storage.getItem(TURN) ?? "{}");
    Object.assign(this, { storage, mode, patron, key });
  }

  // Changes the mode, the patron or both.
  change(changed) {
    Object.assign(this, changed);
    const { mode, patron, key } = this;
    this.storage?.setItem(TURN, JSON.stringify({ mode, patron, key }));
  }

  // The next turn begins, of nobody yet.
  next() {
    this.change({ patron: null, key: newKey() });
  }

  // Nothing more is kept.
  end() {
    this.storage.removeItem(TURN);
    this.storage = null;
  }
}
