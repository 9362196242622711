// The number of what is scanned or typed into a field of a form: as at the line for scans it is first a barcode, then a prefix, and a bare number is of what the field asks for.

import { isBarcode, isNumber } from "./commands.js";
import { foundBy } from "./replies.js";
import { saidNo } from "./saying.js";
import { cut, nameOf } from "./scans.js";
import { MEANINGS, TEXTS, say } from "./texts.js";

const NOBODYS = { refusal: 18 };

// The number, or what is wrong with the text as this kind, a patron's or a copy's; null once the desk is closed. `ask` sends words.
export async function numberBy(kind, text, ask) {
  const words = ["find-barcode", text];
  const answer = isBarcode(text) ? await ask(words) : NOBODYS;
  if (!answer) return null;
  const found = foundBy(answer);
  if (found === undefined) return { problem: saidNo(answer.reply ? { strange: 200 } : answer, words) };
  const { of, number } = found === null ? cut(text) : { of: found.of, number: String(found.number) };
  if (of !== null && of !== kind) return { problem: say(TEXTS.otherScanned, { is: nameOf(of), wanted: nameOf(kind) }) };
  return isNumber(number) || !isBarcode(text) ? { number } : { problem: MEANINGS[NOBODYS.refusal] };
}
