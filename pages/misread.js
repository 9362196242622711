// What is wrong with a line that isn't a command: which word, and why, as the command line tells it; but an amount is typed as it is shown, such as 2.50.

import { COMMANDS, KINDS, centsOf, isBarcode, isKey, isNumber, readLine } from "./commands.js";
import { isDay } from "./days.js";
import { TEXTS, say } from "./texts.js";

const MOST_BYTES = 120;

export function isName(word) {
  const bytes = new TextEncoder().encode(word);
  return bytes.length >= 1 && bytes.length <= MOST_BYTES && bytes.every((byte) => byte >= 32 && byte !== 127) && !word.startsWith(" ") && !word.endsWith(" ");
}

// Of each kind of word whether a word can be of it, and what it must be.
const FORMS = {
  Number: [isNumber, TEXTS.mustNumber],
  Amount: [(word) => isNumber(String(centsOf(word))), TEXTS.amountForm],
  Day: [isDay, TEXTS.mustDay],
  Mask: [(word) => /^[oc]{7}$/.test(word), TEXTS.mustMask],
  CardKey: [isKey, TEXTS.mustCardKey],
  Barcode: [isBarcode, TEXTS.mustBarcode],
  Name: [isName, TEXTS.mustName],
};

// What is wrong with words; null where they are a command.
export function problemOfWords([command, ...words]) {
  if (!Object.hasOwn(COMMANDS, command)) return say(TEXTS.unknownCommand, { word: command });
  const parts = COMMANDS[command];
  const hyphen = words.find((word) => word.startsWith("-"));
  if (hyphen !== undefined) return say(TEXTS.hyphen, { word: hyphen });
  if (words.length !== parts.length) return say(TEXTS.otherWords, { command, found: words.length, wanted: parts.length, parts: parts.join(" ").toUpperCase() }).trim();
  const at = parts.findIndex((part, each) => !FORMS[KINDS[part] ?? "Number"][0](words[each]));
  return at === -1 ? null : say(TEXTS.mustBe, { part: parts[at], word: words[at], must: FORMS[KINDS[parts[at]] ?? "Number"][1] });
}

// What is wrong with a line of words; null where it is a command.
export function problemOfLine(line) {
  const { words, rest } = readLine(line);
  return rest === "" ? problemOfWords(words) : say(TEXTS.openQuote, { word: rest });
}
