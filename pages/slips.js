// Slips for copies that came in and are kept for a hold or go to another branch.

import { marked } from "./isolating.js";
import { TEXTS, TOWN, branchName, say } from "./texts.js";

// The slip of a copy that came in or left the hold shelf, by the reply and the copy as it was found then; null where none is needed. A copy that was moved meanwhile names nobody.
export function slipOf(reply, copy) {
  if (!["checked in", "moved"].includes(reply.kind) || reply.place.to === "shelf" || !copy) return null;
  const { hold, branch, until = null } = reply.place;
  const { name = null, patron = null } = hold !== null && copy.place.hold === hold ? copy.place : {};
  return { copy: copy.copy, text: copy.text, hold, name, patron, branch, until };
}

// The lines of a slip, the first of which is the largest: on the hold shelf a patron looks for a name, and a copy that travels has the place to which it goes.
export function slipLines({ copy, text, hold, name, patron, branch, until }) {
  const where = say(until === null ? TEXTS.slipTransit : TEXTS.slipReady, { branch: branchName(branch), until });
  const whose = name === null ? [] : [marked(name), say(TEXTS.slipPatron, { patron })];
  const held = hold === null ? [] : [say(TEXTS.slipHold, { hold })];
  const last = [say(TEXTS.slipCopy, { copy }), TOWN];
  if (until === null) return [where, ...whose, marked(text), ...held, ...last];
  return name === null ? [...held, marked(text), where, ...last] : [...whose, marked(text), where, ...held, ...last];
}
