// What the desk answers, read from its lines. tests/gate/pages.mjs tries every form.

import { BARCODE, DAY, NUMBER, TEXT, firstOf } from "./forms.js";

const PLACES = [
  [`shelf ${NUMBER}`, ([branch]) => ({ to: "shelf", branch: Number(branch) })],
  [`ready ${NUMBER} at ${NUMBER} until ${DAY}`, ([hold, branch, until]) => ({ to: "hold shelf", hold: Number(hold), branch: Number(branch), until })],
  [`transit ${NUMBER} for ${NUMBER}`, ([branch, hold]) => ({ to: "branch", branch: Number(branch), hold: Number(hold) })],
  [`transit ${NUMBER}`, ([branch]) => ({ to: "branch", branch: Number(branch), hold: null })],
];

function readPlace(text) {
  return firstOf(PLACES, text);
}

const REPLIES = [
  ["ok", () => ({ kind: "done" })],
  [`loan ${NUMBER} due ${DAY}`, ([loan, due]) => ({ kind: "lent", loan: Number(loan), due })],
  [`hold ${NUMBER}`, ([hold]) => ({ kind: "held", hold: Number(hold) })],
  [`fine ${NUMBER} price ${NUMBER}`, ([fine, price]) => ({ kind: "lost", fine: Number(fine), price: Number(price) })],
  [`fine ${NUMBER} ${TEXT}`, ([fine, place]) => ({ kind: "checked in", fine: Number(fine), place: readPlace(place) })],
  [`owed ${NUMBER}`, ([owed]) => ({ kind: "owed", owed: Number(owed) })],
  [`today ${DAY}`, ([day]) => ({ kind: "day", day })],
  [`patron ${NUMBER} owed ${NUMBER} name ${TEXT}\\nkind ${NUMBER}(?:\\nbarcode ${BARCODE})?`,
    ([patron, owed, name, patronKind, barcode = null]) => ({ kind: "borrower", patron: Number(patron), owed: Number(owed), name, patronKind: Number(patronKind), barcode })],
  [`(copy|patron) ${NUMBER}`, ([of, number]) => ({ kind: "found", of, number: Number(number) })],
];

const LINES = [
  [`loan ${NUMBER} due ${DAY} renewals ${NUMBER} title ${NUMBER} ${TEXT}`,
    ([loan, due, renewals, title, text]) => ({ line: "loan", loan: Number(loan), due, renewals: Number(renewals), title: Number(title), text })],
  [`hold ${NUMBER} at ${NUMBER} waiting title ${NUMBER} ${TEXT}`,
    ([hold, branch, title, text]) => ({ line: "hold", hold: Number(hold), branch: Number(branch), state: "waiting", from: null, title: Number(title), text })],
  [`hold ${NUMBER} at ${NUMBER} waiting from ${DAY} title ${NUMBER} ${TEXT}`,
    ([hold, branch, from, title, text]) => ({ line: "hold", hold: Number(hold), branch: Number(branch), state: "waiting", from, title: Number(title), text })],
  [`hold ${NUMBER} at ${NUMBER} ready title ${NUMBER} ${TEXT}`,
    ([hold, branch, title, text]) => ({ line: "hold", hold: Number(hold), branch: Number(branch), state: "ready", from: null, title: Number(title), text })],
];

// What a question of the desk is answered: a copy, a list to its end or to the number from which it goes on, which a search may show without a row, or the sums of a day.
const SHOWN = [`copy ${NUMBER} home [^\\n]+\\n[^\\n]+(?:\\nbarcode ${BARCODE})?`, "(?:[^]+\\n)?end", `(?:[^]+\\n)?after ${NUMBER}`, `till ${DAY}(?: at ${NUMBER})?\\n[^]+`].map((form) => [form, () => true]);

// A patron's page, or null where the text is none.
export function readPage(text) {
  const [first, ...rest] = text.split("\n");
  const patron = new RegExp(`^patron ${NUMBER} owed ${NUMBER} name ${TEXT}$`).exec(first);
  const lines = rest.map((line) => firstOf(LINES, line));
  if (!patron || lines.includes(null)) return null;
  return {
    kind: "page",
    patron: Number(patron[1]),
    owed: Number(patron[2]),
    name: patron[3],
    loans: lines.filter((it) => it.line === "loan"),
    holds: lines.filter((it) => it.line === "hold"),
  };
}

// The text of a reply, or null where it has no form of one.
export function readReply(text) {
  const place = readPlace(text);
  if (place) return { kind: "moved", place };
  const reply = firstOf(REPLIES, text);
  if (reply && reply.kind === "checked in" && !reply.place) return null;
  return reply || readPage(text) || (firstOf(SHOWN, text) && { kind: "shown", lines: text.split("\n") });
}

function jsonOf(body) {
  try {
    const told = JSON.parse(body);
    return told !== null && typeof told === "object" ? told : {};
  } catch {
    return {};
  }
}

// A whole answer by its status and body: a reply, a refusal, a fault or a status of the desk's; `strange`, with its status, where it is none of these.
export function readAnswer(status, body) {
  const told = jsonOf(body);
  if (status === 200 && typeof told.reply === "string") {
    const reply = readReply(told.reply);
    return reply ? { reply, text: told.reply } : { strange: status };
  }
  if ((status === 403 || status === 409) && Number.isInteger(told.refusal)) return { refusal: told.refusal };
  if (status === 503 && Number.isInteger(told.fault)) return { fault: told.fault };
  if ([400, 404, 405, 413].includes(status) && told.status === status) return { status };
  // a reverse proxy's, which passed nothing on
  if (status === 429) return { status };
  return { strange: status };
}

const NOBODYS = 18;

// Whose a barcode is by the answer: null where it is nobody's, and undefined where that isn't told.
export function foundBy(answer) {
  if (answer.reply?.kind === "found") return answer.reply;
  return answer.refusal === NOBODYS ? null : undefined;
}
