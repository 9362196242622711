// What is said to the clerk: of replies, of refusals, and of what waits.

import { COMMANDS, KINDS } from "./commands.js";
import { today } from "./days.js";
import { marked } from "./isolating.js";
import { patronOf } from "./receipt.js";
import { MEANINGS, TEXTS, amount, branchName, say } from "./texts.js";

// Where a copy is.
export function whereIs(place) {
  return place.to === "shelf" ? say(TEXTS.onShelf, { branch: branchName(place.branch) }) : placeOf(place, place.name);
}

// Where a copy goes; with the name of the patron for whom, where it is known.
function placeOf(found, name) {
  const place = { ...found, name, branch: branchName(found.branch) };
  switch (found.to) {
    case "shelf": return say(TEXTS.toShelf, place);
    case "hold shelf": return say(name ? TEXTS.toHoldShelfOf : TEXTS.toHoldShelf, place);
    case "branch": return say(found.hold === null ? TEXTS.toBranch : name ? TEXTS.toBranchOf : TEXTS.toBranchFor, place);
    case "loan": return say(name ? TEXTS.onLoanOf : TEXTS.onLoanUntil, place);
    default: return found.to === "missing" ? TEXTS.isMissing : TEXTS.isWithdrawn;
  }
}

function saidOfBorrower(reply) {
  const told = say(TEXTS.borrowerIs, { ...reply, owed: amount(reply.owed) });
  return reply.barcode === null ? told : say(TEXTS.withBarcode, { told, barcode: reply.barcode });
}

// What a reply says; of a copy that comes in, with the name of the patron whose turn it is.
export function said(reply, name) {
  switch (reply.kind) {
    case "lent": return say(TEXTS.lent, reply);
    case "held": return say(TEXTS.heldNow, reply);
    case "owed": return say(TEXTS.owedNow, { owed: amount(reply.owed) });
    case "moved": return placeOf(reply.place, name);
    case "lost": return say(TEXTS.lost, { fine: amount(reply.fine), price: amount(reply.price) });
    case "checked in":
      return `${placeOf(reply.place, name)} ${reply.fine === 0 ? TEXTS.noFine : say(TEXTS.fine, { fine: amount(reply.fine) })}`;
    case "page":
      return say(TEXTS.pageOf, { patron: reply.patron, name: reply.name, loans: reply.loans.length, holds: reply.holds.length, owed: amount(reply.owed) });
    case "day": return say(TEXTS.todayIs, reply);
    case "borrower": return saidOfBorrower(reply);
    case "found": return say(TEXTS.barcodeOf, { what: say(reply.of === "copy" ? TEXTS.aCopy : TEXTS.aPatron, reply) });
    case "shown": return reply.lines[0];
    default: return TEXTS.done;
  }
}

// The title that words were about and the patron whom they were for, as far as what was asked after them tells these.
function about(words, reply, { page, copy }) {
  const mine = page?.loans.find(({ loan }) => loan === reply.loan) ?? page?.holds.find(({ hold }) => hold === reply.hold);
  if (reply.kind === "checked in" || reply.kind === "moved") return { text: copy?.text, name: reply.place.hold && copy?.place.hold === reply.place.hold ? copy.place.name : undefined };
  if (copy) return { text: copy.text, name: words[0] === "rehome" ? undefined : copy.place.name };
  return { text: mine?.text, name: mine || patronOf(words) === page?.patron ? page?.name : undefined };
}

// What a reply says; of a copy with a new home, which may have left its shelf, with the place where it is.
function saidWithPlace(words, reply, name, copy) {
  return words[0] === "rehome" && copy ? `${said(reply)} ${whereIs(copy.place)}` : said(reply, name);
}

// What a patron owes after words; of a charge, with what it is for.
function saidOfOwed([command, , charged, , text], { owed }, name) {
  if (command === "charge") return say(TEXTS.chargedFor, { name, text, charged: amount(Number(charged)), owed: amount(owed) });
  return say(TEXTS.owesNow, { name, owed: amount(owed) });
}

// What is said in one sentence of a title and a patron; null where one of them isn't known, or there is no such sentence.
function saidOfBoth(words, reply, { text, name }) {
  if (reply.kind === "owed" && name) return saidOfOwed(words, reply, name);
  if (!text || !name) return null;
  if (reply.kind === "lent") return say(words[0] === "renew" ? TEXTS.renewedFor : TEXTS.lentTo, { ...reply, text, name });
  return reply.kind === "held" ? say(TEXTS.heldFor, { ...reply, text, name }) : null;
}

// What accepted words did, with the title and for whom; of a fine or a price, with who owes it.
export function saidFully(words, reply, more) {
  const known = about(words, reply, more);
  const done = saidOfBoth(words, reply, known);
  if (done) return done;
  const moved = saidWithPlace(words, reply, known.name, more.copy);
  const told = known.text ? say(TEXTS.ofTitle, { text: known.text, told: moved }) : moved;
  if (more.debtor) return say(TEXTS.chargedTo, { told, name: more.debtor.name, owed: amount(more.debtor.owed) });
  return known.name && !["checked in", "moved"].includes(reply.kind) ? say(TEXTS.forName, { told, name: known.name }) : told;
}

// Whether a copy that came in wants more of the clerk than to be put on its shelf.
export function isSpecial({ kind, fine, place }) {
  return kind === "checked in" && (fine > 0 || place.to !== "shelf");
}

// What a number means, which may hang on the words of a desk that were refused.
function meaningOf(number, words) {
  if (number === 81 && words !== null) return TEXTS.wrongKey;
  if (number === 53 && words?.[0].startsWith("unshelve")) return TEXTS.notOnShelf;
  return MEANINGS[number];
}

// What an answer says that isn't a reply; `words` are those of a desk, and null where a patron asked.
export function saidNo(answer, words = null) {
  const number = answer.refusal ?? answer.fault ?? answer.status ?? answer.strange;
  const notTaken = answer.status === 429 ? TEXTS.tooMany : TEXTS.notTaken;
  const text = answer.refusal ? TEXTS.refused : answer.fault ? TEXTS.faulted : answer.status ? notTaken : TEXTS.strange;
  return say(text, { number, meaning: meaningOf(number, words) });
}

export function renewalsLeft(loan) {
  if (loan.renewals === 0) return TEXTS.noRenewalLeft;
  return loan.renewals === 1 ? TEXTS.oneRenewalLeft : say(TEXTS.renewalsLeft, loan);
}

// Where a hold stands; until when a copy is kept for it is known to the desk alone.
export function stateOf(found, until) {
  const hold = { ...found, until, branch: branchName(found.branch) };
  if (hold.state === "ready") return say(until ? TEXTS.readyUntil : TEXTS.ready, hold);
  return say(hold.from ? TEXTS.waitingFrom : TEXTS.waiting, hold);
}

// The lines of a patron's page as the desk shows them; `untils` has until when copies stand ready.
export const loanLine = (loan) => say(TEXTS.loanLine, { ...loan, renewals: renewalsLeft(loan) });
export const holdLine = (hold, untils) => say(TEXTS.holdLine, { ...hold, state: stateOf(hold, untils[hold.hold]) });

// Words without the card key that a patron gets by them: it is neither shown nor kept.
export function withoutCardKey(words) {
  const key = COMMANDS[words[0]]?.indexOf("card-key") ?? -1;
  return key === -1 ? words : words.map((word, at) => (at === key + 1 ? "" : word));
}

export function shownWords(words) {
  const partAt = (at) => COMMANDS[words[0]]?.[at - 1];
  const shown = (word, at) => {
    if (word === "") return "…";
    if (KINDS[partAt(at)] === "Amount") return amount(Number(word));
    return ["name", "text"].includes(partAt(at)) ? marked(word) : word;
  };
  return withoutCardKey(words).map(shown).join(" ");
}

export function labelOf(item) {
  const number = item.kind === "amount" ? amount(item.number) : item.number;
  if (item.kind === "words") return shownWords(item.words);
  const texts = { patron: TEXTS.aPatron, copy: TEXTS.aCopy, title: TEXTS.aTitle, amount: TEXTS.anAmount };
  const what = item.kind === "wrong" ? item.text : say(texts[item.kind], { number });
  return item.kind === "patron" || item.patron === null ? what : say(TEXTS.forPatron, { what, patron: item.patron });
}

// What the clerk is asked before an item is sent, and what the buttons say by which it is sent then or isn't; with the name of its patron, where it is known.
export function confirmingOf({ kind, number, patron, words, asked }, name) {
  if (asked !== undefined) return asked;
  if (kind === "words") return { asked: say(TEXTS.confirmDay, { day: words[1], today: today(), yes: TEXTS.yes }), yes: say(TEXTS.yesBegun, { day: words[1] }), no: TEXTS.goOn };
  const paid = amount(number);
  return { asked: say(TEXTS.confirmAmount, { whom: name ?? say(TEXTS.aPatron, { number: patron }), paid }), yes: say(TEXTS.yesPaid, { paid }), no: TEXTS.dont };
}
