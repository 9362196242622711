// What can be done with a row of a list, or with a loan or a hold of the patron at the desk. Each action has its name and one of these: `sends` words; `fills` the form of a command with
// values; `shows` the answer to a question about something; or `serves` a patron in a mode.

import { TEXTS, amount } from "./texts.js";

const sends = (text, words, about = {}) => ({ text, sends: words.map(String), about });
const fills = (text, command, values) => ({ text, fills: command, values });
const shows = (text, question, about) => ({ text, shows: question, about: String(about) });
const serves = (text, patron, mode) => ({ text, serves: patron, mode });

const missing = (copy) => sends(TEXTS.doMissing, ["missing", copy]);
const withdraw = (copy) => sends(TEXTS.doWithdraw, ["withdraw", copy]);
const account = (patron) => shows(TEXTS.doAccount, "account", patron);
const waive = ({ patron, owed }) => fills(TEXTS.doWaive, "waive", { patron, amount: amount(owed) });
const amendPatron = ({ patron, name }) => fills(TEXTS.doAmend, "amend-patron", { patron, name });
const newCardKey = ({ patron }) => fills(TEXTS.doCardKey, "card-key", { patron });
const charge = ({ patron }) => fills(TEXTS.doCharge, "charge", { patron });
const newBarcode = (command, values) => fills(TEXTS.doBarcode, command, values);
const dropBarcode = (barcode, of) => (barcode === null ? [] : [sends(TEXTS.doDropBarcode, ["drop-barcode", barcode], of)]);
const patronDetails = (patron) => shows(TEXTS.doDetails, "borrower", patron);

// What can be done with a patron, whoever shows the patron.
const ofPatron = (row) => [account(row.patron), charge(row), amendPatron(row), newCardKey(row), newBarcode("patron-barcode", { patron: row.patron })];

// What can be done with a copy by where it is.
function ofCopy({ copy, place }) {
  if (place.to === "withdrawn") return [];
  if (place.to === "missing") return [withdraw(copy)];
  return place.to === "shelf" ? [missing(copy), withdraw(copy)] : [missing(copy)];
}

const OF_ROWS = {
  pulls: ({ copy }) => [missing(copy)],
  transits: ({ copy }) => [missing(copy)],
  overdue: ({ patron, copy }) => [serves(TEXTS.doServe, patron, "check-out"), missing(copy)],
  shelf: ({ hold, patron, text, until }, { day }) => [
    serves(TEXTS.doServe, patron, "check-out"), day !== null && until < day ? sends(TEXTS.unshelve, ["unshelve", hold]) : sends(TEXTS.cancel, ["unshelve-cancelled", hold], { patron, text })],
  debts: (row) => [serves(TEXTS.pay, row.patron, "pay"), waive(row), account(row.patron)],
  "find-patrons": (row) => [serves(TEXTS.doServe, row.patron, "check-out"), ...ofPatron(row), patronDetails(row.patron)],
  borrower: (row) => [serves(TEXTS.doServe, row.patron, "check-out"), ...ofPatron(row), ...dropBarcode(row.barcode, { patron: row.patron })],
  "find-titles": ({ title, text }) => [
    shows(TEXTS.doCopies, "copies", title), shows(TEXTS.doQueue, "queue", title), fills(TEXTS.doAmend, "amend-title", { title, text }), fills(TEXTS.doAcquire, "acquire", { title, text })],
  copy: (row) => [
    ...ofCopy(row), fills(TEXTS.doAmend, "amend-copy", { copy: row.copy, kind: row.kind, price: amount(row.price) }), fills(TEXTS.doRehome, "rehome", { copy: row.copy, branch: row.home }),
    newBarcode("copy-barcode", { copy: row.copy }), ...dropBarcode(row.barcode, { copy: row.copy }), shows(TEXTS.doLoans, "loans", row.copy)],
  copies: (row) => [...ofCopy(row), shows(TEXTS.doDetails, "copy", row.copy)],
  queue: ({ hold, patron }, { head }) => [serves(TEXTS.doServe, patron, "check-out"), sends(TEXTS.cancel, ["cancel-hold", hold], { patron, text: head.text })],
  loans: ({ patron }) => [serves(TEXTS.doServe, patron, "check-out")],
  "missing-copies": ({ copy }) => [withdraw(copy)],
  branches: ({ branch, pickup, name, week }) => [fills(TEXTS.doAmend, "amend-branch", { branch, pickup, name }), fills(TEXTS.doWeek, "week", { branch, mask: week }), shows(TEXTS.closedDays, "closed-days", branch)],
  "closed-days": ({ day }, { about }) => [sends(TEXTS.doOpenDay, ["open-day", about, day])],
  kinds: (row) => [fills(TEXTS.doAmend, "kind", { ...row, debt: amount(row.debt) }), shows(TEXTS.rules, "rules", row.kind)],
  rules: ({ copyKind, rate, cap, grace, ...row }) => [
    fills(TEXTS.doAmend, "rule", { ...row, "copy-kind": copyKind, rate: amount(rate), cap: amount(cap) }), fills(TEXTS.colGrace, "grace", { kind: row.kind, "copy-kind": copyKind, days: grace })],
};

// What can be done with a row of the list that a question shows; `of` has the library's day, what the list is about, and its head.
export function actionsOfRow(question, row, of) {
  return OF_ROWS[question]?.(row, of) ?? [];
}

export function actionsOfLoan({ loan, renewals }) {
  return renewals > 0 ? [sends(TEXTS.renew, ["renew", loan])] : [];
}

export function actionsOfHold({ hold, state, text }, { name }) {
  return [sends(TEXTS.cancel, [state === "ready" ? "unshelve-cancelled" : "cancel-hold", hold], { name, text })];
}

export function actionsOfPatron(page) {
  return [...(page.owed > 0 ? [serves(TEXTS.pay, page.patron, "pay"), waive(page)] : []), ...ofPatron(page), patronDetails(page.patron)];
}
