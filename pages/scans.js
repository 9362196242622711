// What a scanner sends, and what is meant by it where a patron, a copy, an amount or a title is wanted.

import { centsOf, isNumber } from "./commands.js";
import { today } from "./days.js";
import { MEANINGS, PREFIXES, TEXTS, say } from "./texts.js";

// The scans of a text that came at once: they are parted by ends of lines and tabs.
export function scansIn(text) {
  return text.split(/[\r\n\t]+/).map((scan) => scan.trim()).filter((scan) => scan !== "");
}

// Whether a key ends the scan that stands in the line: a tab behind it, or a control character in the place of Enter.
export function endsScan({ key, ctrlKey, shiftKey }, text) {
  return (key === "Tab" && !shiftKey && text.trim() !== "") || (ctrlKey && ["j", "m"].includes(key.toLowerCase()));
}

// Whether a key writes a character that may begin a scan; a keyboard on a screen doesn't tell which.
export function beginsScan({ key, ctrlKey, altKey, metaKey }) {
  return ((key.length === 1 && key !== " ") || key === "Unidentified") && !ctrlKey && !altKey && !metaKey;
}

// The number of a scan without its prefix, and whose prefix it was: a patron's, a copy's, or null for none. A prefix stands before a digit; a name may begin with the same letters.
export function cut(text, prefixes = PREFIXES) {
  const longestFirst = Object.entries(prefixes).sort(([, one], [, other]) => other.length - one.length);
  const found = longestFirst.find(([, prefix]) => prefix !== "" && text.toUpperCase().startsWith(prefix.toUpperCase()) && /^\d/.test(text.slice(prefix.length)));
  return found ? { of: found[0], number: text.slice(found[1].length) } : { of: null, number: text };
}

export const needsPatron = (mode) => ["check-out", "pay", "place-hold"].includes(mode);

// What is wanted next of the scanner.
export function wanted(mode, patron) {
  if (needsPatron(mode) && patron === null) return "patron";
  return { "pay": "amount", "place-hold": "title" }[mode] ?? "copy";
}

const CONFIRMED_ABOVE = 5000;

const isLarge = ({ kind, number }) => kind === "amount" && number > CONFIRMED_ABOVE;

// Whether an item begins another day than that of this machine: no other words can take that back.
export function beginsOtherDay({ kind, words }, day = today()) {
  return kind === "words" && words[0] === "begin-day" && words[1] !== day;
}

// Whether the clerk is asked before an item is sent.
export function needsConfirming(item, day = today()) {
  return !item.isConfirmed && (item.about !== undefined || isLarge(item) || beginsOtherDay(item, day));
}

// Whether what the clerk typed confirms an item: a day is confirmed by a typed yes alone.
export function isConfirming(item, typed, day = today()) {
  return !needsConfirming(item, day) || !beginsOtherDay(item, day) || typed.trim().toLowerCase() === TEXTS.yes.toLowerCase();
}

// What a kind of scan is called.
export function nameOf(kind) {
  return { patron: TEXTS.theCard, copy: TEXTS.theCopy, title: TEXTS.theTitle, amount: TEXTS.theAmount }[kind];
}

// What is wrong with a scan as this kind; null where nothing is.
function problemOf(kind, text, { of, number }) {
  if (of !== null && of !== kind) return say(TEXTS.otherScanned, { is: nameOf(of), wanted: nameOf(kind) });
  const isRight = kind === "amount" ? centsOf(text) !== null : isNumber(number);
  return isRight ? null : say(TEXTS.wrongForm, { what: kind === "amount" ? TEXTS.amountForm : TEXTS.numberForm });
}

// What a scan is to be: a card is its patron's in each mode but check-in, which serves nobody; whatever else is what is wanted.
const kindOf = (mode, patron, of) => (of === "patron" && mode !== "check-in" ? "patron" : wanted(mode, patron));

// What is to be done with a scan, by whose barcode or prefix it is, and by what is wanted where it is neither; `wrong`, with what is wrong with it, where nothing can be. `patron` is
// the one for whom it is scanned where it is no card: null for nobody yet.
export function itemOf(mode, patron, text, scan = cut(text)) {
  const kind = kindOf(mode, patron, scan.of);
  const whose = needsPatron(mode) ? patron : null;
  const problem = problemOf(kind, text, scan);
  if (problem) return { kind: "wrong", mode, patron: whose, text, problem };
  return { kind, mode, patron: whose, text, number: kind === "amount" ? centsOf(text) : Number(scan.number) };
}

// The number of a patron's own card, which stands there with its prefix or without; or what is wrong with it. Whose a barcode is is told to the desk alone.
export function ownNumber(text) {
  const scan = cut(text);
  const problem = problemOf("patron", text, scan);
  if (problem === null) return { number: scan.number };
  return { problem: scan.of === "copy" ? problem : say(TEXTS.wrongForm, { what: TEXTS.ownNumberForm }) };
}

// What is to be done with a scan once it is known whose barcode it is, which is null for nobody's.
export function itemFound(mode, patron, text, found) {
  if (found !== null) return itemOf(mode, patron, text, { of: found.of, number: String(found.number) });
  const item = itemOf(mode, patron, text);
  return item.kind === "wrong" && !isNumber(cut(text).number) ? { ...item, problem: MEANINGS[18] } : item;
}

// The words by which an item is sent.
export function wordsOfItem({ kind, mode, number, patron }, branch) {
  if (kind === "patron") return ["page", number];
  return {
    "check-out": ["check-out", patron, number, branch],
    "check-in": ["check-in", number, branch],
    "pay": ["pay-at", patron, number, branch],
    "place-hold": ["place-hold", patron, number, branch],
  }[mode];
}
