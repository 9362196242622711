// The town's branches, as the library names them, and the one where this machine stands. The machine remembers both, so that a branch is chosen by its name.

import { isNumber } from "./commands.js";
import { BRANCHES } from "./texts.js";

const NAMES = "circ.branches";
const HERE = "circ.branch";

// The number of a branch that is typed by its number, or by its name among these; null where it is neither.
export function numberOfBranch(text, names) {
  if (isNumber(text)) return text;
  return Object.entries(names).find(([, name]) => name.toLowerCase() === text.toLowerCase())?.[0] ?? null;
}

export class Branches {
  constructor(machine) {
    Object.assign(this, { machine, given: { ...BRANCHES } });
    this.show(JSON.parse(machine.getItem(NAMES) ?? "{}"));
  }

  // The numbers and names, by number.
  get all() {
    return Object.entries(this.names);
  }

  // The branch where this machine stands, as it is typed.
  get here() {
    const number = this.machine.getItem(HERE);
    return number === null ? "" : this.names[number] ?? number;
  }

  set here(number) {
    this.machine.setItem(HERE, number);
  }

  // What the library told; a name that the town gave in its texts goes before.
  learn(rows) {
    const told = Object.fromEntries(rows.map(({ branch, name }) => [branch, name]));
    this.machine.setItem(NAMES, JSON.stringify(told));
    this.show(told);
  }

  show(told) {
    this.names = { ...told, ...this.given };
    Object.assign(BRANCHES, this.names);
  }

  numberOf(text) {
    return numberOfBranch(text, this.names);
  }
}
