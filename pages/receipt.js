// The receipt of a patron's visit: what was lent, renewed, paid, charged and held for this patron, and nothing else.

import { TEXTS, amount, branchName, say } from "./texts.js";

export function newReceipt({ patron, name }, day, branch) {
  return { patron, name, day, branch: Number(branch), rows: [] };
}

export function receiptHead({ name, day, branch }) {
  return say(TEXTS.receiptHead, { name, day: day ?? TEXTS.noDay, branch: branchName(branch) });
}

// What the patron owes, as it stands below the receipt.
export function receiptEnd({ owed }) {
  return owed === 0 ? TEXTS.owesNothing : say(TEXTS.owes, { owed: amount(owed) });
}

const OF_PATRON = ["check-out", "pay", "pay-at", "waive", "charge", "place-hold", "place-hold-from", "card-key", "patron-barcode", "amend-patron"];

// The patron whom words are for, as they say; a renewal names none.
export function patronOf(words) {
  return OF_PATRON.includes(words[0]) ? Number(words[1]) : null;
}

function heldRow(hold, page) {
  const held = page?.holds.find((it) => it.hold === hold);
  if (!held) return say(TEXTS.heldNow, { hold });
  return say(held.from ? TEXTS.receiptHeldFrom : TEXTS.receiptHeld, { ...held, branch: branchName(held.branch) });
}

// What was paid or charged, at which counter, and what a charge is for; what is waived stands in the account alone.
function moneyRow([command, , cents, branch, text], owed) {
  const [money, at] = [amount(Number(cents)), branchName(branch)];
  switch (command) {
    case "pay": return say(TEXTS.receiptPaid, { paid: money, owed });
    case "pay-at": return say(TEXTS.receiptPaidAt, { paid: money, branch: at, owed });
    case "charge": return say(TEXTS.receiptCharged, { text, charged: money, branch: at, owed });
    default: return null;
  }
}

// The row that accepted words add to the receipt of a patron, whose page came after them; null where they add none, as another's do.
export function receiptRow(patron, words, reply, page) {
  const loan = page?.loans.find((it) => it.loan === reply.loan);
  if (words[0] === "renew") return loan ? say(TEXTS.receiptRenewed, { text: loan.text, due: reply.due }) : null;
  if (patronOf(words) !== patron) return null;
  if (reply.kind === "lent") return loan ? say(TEXTS.receiptLent, { text: loan.text, due: reply.due }) : say(TEXTS.lent, reply);
  if (reply.kind === "held") return heldRow(reply.hold, page);
  return reply.kind === "owed" ? moneyRow(words, amount(reply.owed)) : null;
}
