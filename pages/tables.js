// The tables of what is asked of the desk: their heads, columns and cells.

import { marked } from "./isolating.js";
import { whereIs } from "./saying.js";
import { TEXTS, amount, branchName, say } from "./texts.js";

const whole = (name) => (row) => String(row[name]);
const orNone = (name) => (row) => (row[name] === null ? "" : String(row[name]));
const free = (name) => (row) => (row[name] === null ? "" : marked(row[name]));
// a name comes after its row, or never
const named = ({ name }) => (name === undefined ? "" : marked(name));
const money = (name) => (row) => amount(row[name]);
const where = ({ place }) => whereIs(place);
const weekdays = TEXTS.weekdays.split(" ");
const closed = ({ week }) => weekdays.filter((_, at) => week[at] === "c").join(", ");
const sorts = {
  fine: TEXTS.sortFine, price: TEXTS.sortPrice, payment: TEXTS.sortPayment, waiver: TEXTS.sortWaiver, charge: TEXTS.sortCharge,
  fines: TEXTS.sumFines, prices: TEXTS.sumPrices, payments: TEXTS.sumPayments, waivers: TEXTS.sumWaivers, charges: TEXTS.sumCharges,
};
const sort = (row) => sorts[row.sort];
const sortAt = (row) => (row.branch === null ? sort(row) : say(TEXTS.sortAt, { sort: sort(row), branch: branchName(row.branch) }));

const [copy, hold, patron, title] = [[TEXTS.colCopy, whole("copy")], [TEXTS.colHold, orNone("hold")], [TEXTS.colPatron, whole("patron")], [TEXTS.colTitle, free("text")]];
const barcode = [TEXTS.colBarcode, orNone("barcode")];
const whose = [TEXTS.colName, named];

// Of each question its head, and its columns with what stands in them of a row.
const TABLES = {
  pulls: { head: TEXTS.pulls, columns: [copy, title, hold] },
  shelf: { head: TEXTS.shelf, columns: [hold, copy, patron, whose, [TEXTS.colUntil, whole("until")], title] },
  overdue: { head: TEXTS.overdue, columns: [[TEXTS.colLoan, whole("loan")], patron, whose, copy, [TEXTS.colDue, whole("due")], [TEXTS.colLate, whole("late")], title] },
  transits: { head: TEXTS.transits, columns: [copy, title, hold] },
  till: { head: TEXTS.tillOf, columns: [[TEXTS.colSum, sort], [TEXTS.colAmount, money("amount")]] },
  "till-at": { head: TEXTS.tillAtOf, columns: [[TEXTS.colSum, sort], [TEXTS.colAmount, money("amount")]] },
  debts: { head: TEXTS.debtsOf, columns: [patron, [TEXTS.colName, free("name")], [TEXTS.colOwed, money("owed")]] },
  "find-patrons": { head: TEXTS.foundPatrons, columns: [patron, [TEXTS.colName, free("name")], [TEXTS.colOwed, money("owed")]] },
  "find-titles": { head: TEXTS.foundTitles, columns: [[TEXTS.colTitleNumber, whole("title")], title] },
  account: {
    head: TEXTS.accountOf,
    columns: [[TEXTS.colLine, whole("line")], [TEXTS.colDay, whole("day")], [TEXTS.colSort, sortAt], [TEXTS.colAmount, money("amount")], [TEXTS.colFor, free("text")]],
  },
  borrower: { head: TEXTS.borrowerOf, columns: [patron, [TEXTS.colName, free("name")], [TEXTS.colOwed, money("owed")], [TEXTS.colKind, whole("patronKind")], barcode] },
  copy: { head: TEXTS.copyOf, columns: [copy, title, [TEXTS.colTitleNumber, whole("title")], [TEXTS.colHome, ({ home }) => branchName(home)], [TEXTS.colPrice, money("price")], [TEXTS.colPlace, where], barcode] },
  copies: { head: TEXTS.copiesOf, columns: [copy, [TEXTS.colPlace, where]] },
  "missing-copies": { head: TEXTS.missingCopies, columns: [copy, title, [TEXTS.colTitleNumber, whole("title")], [TEXTS.colHome, ({ home }) => branchName(home)]] },
  loans: { head: TEXTS.loansOf, columns: [[TEXTS.colLoan, whole("loan")], patron, whose, [TEXTS.colMade, whole("made")], [TEXTS.colDue, whole("due")], [TEXTS.colEnded, orNone("ended")]] },
  branches: { head: TEXTS.branches, columns: [[TEXTS.branch, whole("branch")], [TEXTS.colName, free("name")], [TEXTS.colClosed, closed], [TEXTS.colPickUpDays, whole("pickup")]] },
  "closed-days": { head: TEXTS.closedDaysOf, columns: [[TEXTS.colDay, whole("day")]] },
  kinds: { head: TEXTS.kinds, columns: [[TEXTS.colKind, whole("kind")], [TEXTS.colLoans, whole("loans")], [TEXTS.colHolds, whole("holds")], [TEXTS.colDebt, money("debt")]] },
  rules: {
    head: TEXTS.rulesOf,
    columns: [[TEXTS.colCopyKind, whole("copyKind")], [TEXTS.colPeriod, whole("period")], [TEXTS.colRenewals, whole("renewals")], [TEXTS.colRate, money("rate")], [TEXTS.colCap, money("cap")], [TEXTS.colGrace, whole("grace")]],
  },
  queue: { head: TEXTS.queueOf, columns: [hold, patron, whose, [TEXTS.colPickUp, ({ branch }) => branchName(branch)], [TEXTS.colFrom, orNone("from")]] },
};

// How what a head tells is shown.
const SHOWN = { owed: amount, branch: (branch) => branchName(branch) };

// The lists of one branch; all others are of the whole town.
const OF_BRANCH = ["pulls", "shelf", "overdue", "transits", "till-at"];

export const isOfBranch = (question) => OF_BRANCH.includes(question);

// The head of a table, the names of its columns and the cells of its rows, of a list as it was read.
export function tableOf(question, { head, rows }) {
  const { head: text, columns } = TABLES[question];
  const told = Object.fromEntries(Object.entries(head ?? {}).map(([name, value]) => [name, SHOWN[name]?.(value) ?? value]));
  return { head: say(text, told), columns: columns.map(([name]) => name), rows: rows.map((row) => columns.map(([, cell]) => cell(row))) };
}

// The hold that a row of a list is about, where its copy was kept until a day that is over.
export function expiredHold(question, { hold, until }, day) {
  return question === "shelf" && day !== null && until < day ? hold : null;
}

// Whether a question looks for a text.
function isSearch(question) {
  return question === "find-patrons" || question === "find-titles";
}

// What is told above a list that has no head of its own, of what was asked about.
export function headOf(question, about) {
  if (isSearch(question)) return { sought: about };
  if (question === "closed-days") return { branch: about };
  if (question === "loans") return { copy: about };
  return question === "rules" ? { kind: about } : null;
}

// The lists whose rows have the numbers of patrons alone.
const NUMBERED = ["shelf", "overdue", "loans", "queue"];

// The patrons of a list whose names are still to be asked for, each once.
export function namelessOf(question, rows) {
  return NUMBERED.includes(question) ? [...new Set(rows.filter(({ name }) => name === undefined).map(({ patron }) => patron))] : [];
}

// The words of a question about a branch, a number, a day or a text, from a number on; the till of one branch is that of the desk's.
export function wordsOfQuestion(question, about, after, branch) {
  if (isSearch(question)) return [question, after, about];
  if (question === "till-at") return [question, branch, about];
  if (["copy", "borrower", "till"].includes(question)) return [question, about];
  return ["debts", "branches", "kinds", "missing-copies"].includes(question) ? [question, after] : [question, about, after];
}
