// What waits at a desk is kept on this machine too, in the case that its tab is closed or left to another clerk: the next desk of its branch that is opened here with the same key takes it over. Under the
// key of another clerk a request whose answer was lost would be done a second time.

import { newKey } from "./asking.js";

const TAB = "circ.tab";
const KEPT = "circ.waiting.";

// A mark of a key, of 16 bits: it tells clerks apart, and next to nothing of the key.
function markOf(key) {
  const mixed = [...key].reduce((mark, letter) => Math.imul(mark ^ letter.codePointAt(0), 0x01000193), 0x811c9dc5);
  return (mixed ^ (mixed >>> 16)) & 0xffff;
}

export class LeftBehind {
  // `key` is that of the clerk, `storage` that of the tab, and `machine` that of all tabs.
  constructor(branch, key, storage, machine) {
    Object.assign(this, { branch, machine, mark: markOf(key) });
    this.tab = storage.getItem(TAB) ?? newKey();
    storage.setItem(TAB, this.tab);
    // open until `leave` is called
    this.open = new Promise((done) => { this.leave = done; });
  }

  // Keeps what waits in this tab.
  keep(items) {
    if (items.length === 0) this.machine.removeItem(KEPT + this.tab);
    else this.machine.setItem(KEPT + this.tab, JSON.stringify({ branch: this.branch, mark: this.mark, items }));
  }

  // Takes over what waited at this branch under this key in tabs that are closed. A program from before kept no mark.
  take(open) {
    const names = Array.from({ length: this.machine.length }, (_, at) => this.machine.key(at));
    const closed = names.filter((name) => name.startsWith(KEPT) && ![...open, this.tab].includes(name.slice(KEPT.length)));
    const found = closed.map((name) => ({ name, ...JSON.parse(this.machine.getItem(name)) })).filter(({ branch, mark = this.mark }) => branch === this.branch && mark === this.mark);
    for (const { name } of found) this.machine.removeItem(name);
    return found.flatMap(({ items }) => items);
  }

  // Says to other tabs that this one is open, as long as it is and isn't left; a browser does so over TLS alone, or on the machine itself.
  beOpen(locks = globalThis.navigator?.locks) {
    locks?.request(KEPT + this.tab, () => this.open);
  }
}

// The tabs that are open.
export async function openTabs(locks = globalThis.navigator?.locks) {
  const { held } = await locks?.query() ?? { held: [] };
  return held.filter(({ name }) => name.startsWith(KEPT)).map(({ name }) => name.slice(KEPT.length));
}
