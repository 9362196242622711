// The fields of forms: what each part of a command is called there, what it must be, and what is sent of it.

import { COMMANDS, KINDS, centsOf, isBarcode, isKey, isNumber } from "./commands.js";
import { isDay } from "./days.js";
import { isName } from "./misread.js";
import { TEXTS, amount, say } from "./texts.js";

const LABELS = {
  "amount": TEXTS.partAmount, "barcode": TEXTS.colBarcode, "branch": TEXTS.partBranch, "cap": TEXTS.partCap, "card-key": TEXTS.cardKey, "copy": TEXTS.partCopy, "copy-kind": TEXTS.partCopyKind, "day": TEXTS.partDay,
  "days": TEXTS.partDays, "debt": TEXTS.partDebt, "hold": TEXTS.colHold, "holds": TEXTS.partHolds, "home": TEXTS.partHome, "kind": TEXTS.partKind, "loans": TEXTS.partLoans, "mask": TEXTS.partMask,
  "name": TEXTS.partName, "patron": TEXTS.cardNumber, "period": TEXTS.partPeriod, "pickup": TEXTS.partPickup, "price": TEXTS.partPrice, "rate": TEXTS.partRate, "renewals": TEXTS.partRenewals,
  "text": TEXTS.partText, "title": TEXTS.titleNumber,
};

// The least and the most of a number, and the most of an amount in cents, as the library has them.
const LIMITS = {
  "patron": [1, 9_999_999], "copy": [1, 9_999_999], "title": [1, 9_999_999], "branch": [1, 99], "home": [1, 99], "kind": [1, 99], "copy-kind": [1, 99], "pickup": [0, 60], "loans": [0, 200],
  "holds": [0, 200], "period": [1, 365], "renewals": [0, 99], "days": [0, 365], "debt": [0, 1_000_000], "rate": [0, 10_000], "cap": [0, 100_000], "price": [0, 1_000_000],
};

const CHARGE = { "amount": [1, 1_000_000] };

const limitsOf = (command, part) => (command === "charge" && CHARGE[part]) || LIMITS[part];

const isWithin = (number, [least, most]) => number >= least && number <= most;

// A kind of a copy is called so where a command has no kind of patrons, and the text of a charge by what it is.
export function labelOf(command, part) {
  if (command === "charge" && part === "text") return TEXTS.partFor;
  return part === "kind" && ["acquire", "amend-copy"].includes(command) ? TEXTS.partCopyKind : LABELS[part];
}

// Whether a part is chosen among branches.
export const isBranch = (part) => part === "branch" || part === "home";

// Whether the card of a patron, or a copy, can be scanned into a field; whoever enters a new one gives its number.
export const isScanned = (command, part) => ["patron", "copy"].includes(part) && command !== undefined && !["patron", "acquire"].includes(command);

// What a part must be; a branch that is chosen and a week that is ticked can be nothing else.
export function formOf(part, command) {
  const limits = limitsOf(command, part);
  switch (KINDS[part]) {
    case "Amount": return limits ? say(TEXTS.amountUpTo, { most: amount(limits[1]) }) : TEXTS.amountForm;
    case "Day": return TEXTS.mustDay;
    case "CardKey": return TEXTS.cardKeyForm;
    case "Barcode": return TEXTS.barcodeForm;
    case "Name": return TEXTS.nameForm;
    case "Mask": return TEXTS.maskForm;
    default: return limits ? say(isScanned(command, part) ? TEXTS.numberOrLabel : TEXTS.numberFromTo, { least: limits[0], most: limits[1] }) : TEXTS.numberForm;
  }
}

function isRight(part, text, command) {
  const limits = limitsOf(command, part) ?? [0, 4_294_967_295];
  switch (KINDS[part]) {
    case "Amount": return centsOf(text) !== null && isWithin(centsOf(text), limits);
    case "Day": return isDay(text);
    case "CardKey": return isKey(text);
    case "Barcode": return isBarcode(text);
    case "Name": return isName(text) && !text.startsWith("-");
    case "Mask": return text.includes("o");
    default: return isNumber(text) && isWithin(Number(text), limits);
  }
}

// What is wrong with what stands in a field; null where nothing is.
export function problemOfField(part, text, command) {
  return isRight(part, text, command) ? null : say(TEXTS.wrongForm, { what: formOf(part, command) });
}

// The words of a form that is filled in, by the parts of its command.
export function wordsOfForm(command, values) {
  return [command, ...COMMANDS[command].map((part) => (KINDS[part] === "Amount" ? String(centsOf(values[part])) : values[part]))];
}

const PARTS_OF_REFUSALS = {
  10: ["branch", "home"], 11: ["patron"], 12: ["title"], 13: ["copy"], 16: ["copy-kind"], 17: ["kind"], 18: ["barcode"], 20: ["patron", "copy", "branch"],
  21: ["amount"], 22: ["mask"], 23: ["day"], 24: ["day"], 25: ["day"], 26: ["barcode"], 60: ["amount"],
};

// The part of a command that a refusal is about; null where it is about none.
export function partOfRefusal(command, number) {
  return PARTS_OF_REFUSALS[number]?.find((part) => COMMANDS[command].includes(part)) ?? null;
}
