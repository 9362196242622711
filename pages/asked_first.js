// What can't be undone is asked about in one sentence, with the name and the sum that it is about, before it is sent.

import { COMMANDS } from "./commands.js";
import { patronOf } from "./receipt.js";
import { TEXTS, amount, say } from "./texts.js";

// A first barcode takes nothing away, and isn't asked about.
function askedOfBarcode(of) {
  return of.old === null ? null : [say(TEXTS.confirmBarcode, of), TEXTS.yesBarcode];
}

// Of each command: what is asked, and what the button says by which it is sent then.
const ASKED = {
  "missing": ({ name, ...of }) => [say(name ? TEXTS.confirmMissingOf : TEXTS.confirmMissing, { ...of, name, price: amount(of.price) }), TEXTS.yesMissing],
  "withdraw": (of) => [say(TEXTS.confirmWithdraw, of), TEXTS.yesWithdraw],
  "waive": (of) => [say(TEXTS.confirmWaive, of), say(TEXTS.yesWaived, of)],
  "charge": (of) => [say(TEXTS.confirmCharge, of), say(TEXTS.yesCharged, of)],
  "copy-barcode": (of) => askedOfBarcode(of),
  "patron-barcode": (of) => askedOfBarcode(of),
  "drop-barcode": (of) => [say(TEXTS.confirmDrop, of), TEXTS.yesDrop],
  "card-key": (of) => [say(TEXTS.confirmCardKey, of), TEXTS.yesCardKey],
  "cancel-hold": (of) => [say(TEXTS.confirmCancel, of), TEXTS.yesCancel],
  "unshelve-cancelled": (of) => [say(TEXTS.confirmUnshelve, of), TEXTS.yesCancel],
};

// Whether words are asked about first where a button or a form sends them.
export const isAskedFirst = ([command]) => Object.hasOwn(ASKED, command);

// What has to be known of words before they are asked about, beyond what is known already: a question, or null for nothing.
export function questionFirst(words, { name, patron, copy }) {
  if (["missing", "withdraw", "copy-barcode"].includes(words[0])) return ["copy", words[1]];
  if (words[0] === "drop-barcode" && patron === undefined) return copy === undefined ? ["find-barcode", words[1]] : ["copy", String(copy)];
  const whose = patronOf(words) ?? patron;
  return name === undefined && whose !== undefined ? ["borrower", String(whose)] : null;
}

// What a question told of words: the copy with its title and the name of its borrower, the name of a patron, or which of these has a barcode; null where it told none of them.
export function knownBy(copy, reply) {
  if (copy) return { copy: copy.copy, text: copy.text, price: copy.price, whom: copy.text, old: copy.barcode, name: copy.place.to === "loan" ? copy.place.name : undefined };
  if (reply.kind === "found") return { whom: say(reply.of === "copy" ? TEXTS.aCopy : TEXTS.aPatron, reply) };
  return reply.kind === "borrower" ? { name: reply.name, whom: reply.name, old: reply.barcode } : null;
}

// What is filled in of the words themselves.
function filledIn(words) {
  const value = (part) => words[COMMANDS[words[0]].indexOf(part) + 1];
  switch (words[0]) {
    case "waive": return { paid: amount(Number(value("amount"))) };
    case "charge": return { charged: amount(Number(value("amount"))), text: value("text") };
    case "copy-barcode": case "patron-barcode": case "drop-barcode": return { barcode: value("barcode") };
    default: return {};
  }
}

// The sentence, and what the two buttons say; null where nothing is asked.
export function askedOf(words, known) {
  const found = ASKED[words[0]]({ ...known, ...filledIn(words) });
  return found && { asked: found[0], yes: found[1], no: TEXTS.dont };
}
