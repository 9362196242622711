// What the desk answers to questions: a copy, and lists of rows. tests/gate/pages.mjs tries every form.

import { BARCODE, DAY, NUMBER, TEXT, firstOf } from "./forms.js";

const BLANKS = " *";

const bound = ([hold, branch, until, patron, name]) => ({ to: "hold shelf", hold: Number(hold), branch: Number(branch), until, patron: Number(patron), name });
const coming = ([branch, hold, patron, name]) => ({ to: "branch", branch: Number(branch), hold: Number(hold), patron: Number(patron), name });
const lent = ([loan, due, patron, name]) => ({ to: "loan", loan: Number(loan), due, patron: Number(patron), name });

// Where a copy is, with the patron for whom it is there; in a list of copies without.
const PLACES = [
  [`shelf ${NUMBER}`, ([branch]) => ({ to: "shelf", branch: Number(branch) })],
  [`ready ${NUMBER} at ${NUMBER} until ${DAY} patron ${NUMBER} ${TEXT}`, bound],
  [`transit ${NUMBER} for ${NUMBER} patron ${NUMBER} ${TEXT}`, coming],
  [`transit ${NUMBER}`, ([branch]) => ({ to: "branch", branch: Number(branch), hold: null })],
  [`loan ${NUMBER} due ${DAY} patron ${NUMBER} ${TEXT}`, lent],
  ["missing", () => ({ to: "missing" })],
  ["withdrawn", () => ({ to: "withdrawn" })],
];

const PLACES_IN_LIST = [
  ...PLACES.filter(([form]) => !form.includes(" patron ")),
  [`ready ${NUMBER} at ${NUMBER} until ${DAY}`, ([hold, branch, until]) => ({ to: "hold shelf", hold: Number(hold), branch: Number(branch), until })],
  [`transit ${NUMBER} for ${NUMBER}`, ([branch, hold]) => ({ to: "branch", branch: Number(branch), hold: Number(hold) })],
  [`loan ${NUMBER} due ${DAY}`, ([loan, due]) => ({ to: "loan", loan: Number(loan), due })],
];

const COPY = [[`copy ${NUMBER} home ${NUMBER} kind ${NUMBER} price ${NUMBER} title ${NUMBER} ${TEXT}`,
  ([copy, home, kind, price, title, text]) => ({ copy: Number(copy), home: Number(home), kind: Number(kind), price: Number(price), title: Number(title), text })]];

const LABEL = [[`barcode ${BARCODE}`, ([barcode]) => barcode]];

// A copy, its place, and its barcode or null; null where the text is none.
export function readCopy(text) {
  const [first, second, third, ...more] = text.split("\n");
  const copy = firstOf(COPY, first);
  const place = second !== undefined && more.length === 0 ? firstOf(PLACES, second) : null;
  const barcode = third === undefined ? null : firstOf(LABEL, third) ?? undefined;
  return copy && place && barcode !== undefined ? { ...copy, place, barcode } : null;
}

const TITLE = [[`title ${NUMBER} ${TEXT}`, ([title, text]) => ({ title: Number(title), text })]];
const DEBTOR = [[`patron ${NUMBER} owed ${NUMBER} name ${TEXT}`, ([patron, owed, name]) => ({ patron: Number(patron), owed: Number(owed), name })]];
// A line of an account: where it was made, and the title or what a charge is for, as far as these are told.
const lineOf = (line, day, sort, amount, { branch = null, text = null, ...of } = {}) => ({ line: Number(line), day, sort, amount: Number(amount), branch: branch && Number(branch), text, ...of });
const columns = (...names) => new RegExp(`^${BLANKS}${names.join(" +")} +title$`);

// The heads and the rows of the lists by the question that they answer; a head is one line or none.
const LISTS = {
  copies: {
    head: TITLE,
    rows: [[`copy ${NUMBER} ${TEXT}`, ([copy, place]) => ({ copy: Number(copy), place: firstOf(PLACES_IN_LIST, place) })]],
  },
  queue: {
    head: TITLE,
    rows: [
      [`hold ${NUMBER} patron ${NUMBER} at ${NUMBER}`, ([hold, patron, branch]) => ({ hold: Number(hold), patron: Number(patron), branch: Number(branch), from: null })],
      [`hold ${NUMBER} patron ${NUMBER} at ${NUMBER} from ${DAY}`, ([hold, patron, branch, from]) => ({ hold: Number(hold), patron: Number(patron), branch: Number(branch), from })],
    ],
  },
  account: {
    head: DEBTOR,
    rows: [
      [`line ${NUMBER} ${DAY} (fine|price) ${NUMBER} loan ${NUMBER} title ${NUMBER} ${TEXT}`,
        ([line, day, sort, amount, loan, title, text]) => lineOf(line, day, sort, amount, { text, loan: Number(loan), title: Number(title) })],
      [`line ${NUMBER} ${DAY} (payment|waiver) ${NUMBER}`, (found) => lineOf(...found)],
      [`line ${NUMBER} ${DAY} (payment) ${NUMBER} at ${NUMBER}`, ([line, day, sort, amount, branch]) => lineOf(line, day, sort, amount, { branch })],
      [`line ${NUMBER} ${DAY} (charge) ${NUMBER} at ${NUMBER} for ${TEXT}`, ([line, day, sort, amount, branch, text]) => lineOf(line, day, sort, amount, { branch, text })],
    ],
  },
  debts: { head: null, rows: DEBTOR },
  "find-patrons": { head: null, rows: DEBTOR },
  "find-titles": { head: null, rows: TITLE },
  branches: {
    head: null,
    rows: [[`branch ${NUMBER} pickup ${NUMBER} week ([oc]{7}) name ${TEXT}`, ([branch, pickup, week, name]) => ({ branch: Number(branch), pickup: Number(pickup), week, name })]],
  },
  "closed-days": { head: null, rows: [[`day ${DAY}`, ([day]) => ({ day })]] },
  kinds: {
    head: null,
    rows: [[`kind ${NUMBER} loans ${NUMBER} holds ${NUMBER} debt ${NUMBER}`, ([kind, loans, holds, debt]) => ({ kind: Number(kind), loans: Number(loans), holds: Number(holds), debt: Number(debt) })]],
  },
  rules: {
    head: null,
    rows: [[`rule ${NUMBER} ${NUMBER} period ${NUMBER} renewals ${NUMBER} rate ${NUMBER} cap ${NUMBER} grace ${NUMBER}`,
      ([kind, copyKind, period, renewals, rate, cap, grace]) => (
        { kind: Number(kind), copyKind: Number(copyKind), period: Number(period), renewals: Number(renewals), rate: Number(rate), cap: Number(cap), grace: Number(grace) })]],
  },
  "missing-copies": {
    head: null,
    rows: [[`copy ${NUMBER} home ${NUMBER} title ${NUMBER} ${TEXT}`, ([copy, home, title, text]) => ({ copy: Number(copy), home: Number(home), title: Number(title), text })]],
  },
  loans: {
    head: null,
    rows: [
      [`loan ${NUMBER} patron ${NUMBER} made ${DAY} due ${DAY}`, ([loan, patron, made, due]) => ({ loan: Number(loan), patron: Number(patron), made, due, ended: null })],
      [`loan ${NUMBER} patron ${NUMBER} made ${DAY} due ${DAY} ended ${DAY}`, ([loan, patron, made, due, ended]) => ({ loan: Number(loan), patron: Number(patron), made, due, ended })],
    ],
  },
  overdue: {
    head: columns("loan", "patron", "copy", "due", "late"),
    rows: [[`${BLANKS}${NUMBER} +${NUMBER} +${NUMBER} ${DAY} +${NUMBER} ${TEXT}`,
      ([loan, patron, copy, due, late, text]) => ({ loan: Number(loan), patron: Number(patron), copy: Number(copy), due, late: Number(late), text })]],
  },
  shelf: {
    head: columns("hold", "copy", "patron", "until"),
    rows: [[`${BLANKS}${NUMBER} +${NUMBER} +${NUMBER} ${DAY} ${TEXT}`,
      ([hold, copy, patron, until, text]) => ({ hold: Number(hold), copy: Number(copy), patron: Number(patron), until, text })]],
  },
  pulls: {
    head: null,
    rows: [[`hold ${NUMBER} copy ${NUMBER} title ${NUMBER} ${TEXT}`, ([hold, copy, title, text]) => ({ hold: Number(hold), copy: Number(copy), title: Number(title), text })]],
  },
  transits: {
    head: null,
    rows: [
      [`copy ${NUMBER} for ${NUMBER} title ${NUMBER} ${TEXT}`, ([copy, hold, title, text]) => ({ copy: Number(copy), hold: Number(hold), title: Number(title), text })],
      [`copy ${NUMBER} title ${NUMBER} ${TEXT}`, ([copy, title, text]) => ({ copy: Number(copy), hold: null, title: Number(title), text })],
    ],
  },
};

// The end of a list: null where no row follows, the number to ask from where one does, and undefined where the line is neither.
function readEnd(line) {
  return line === "end" ? null : firstOf([[`after ${NUMBER}`, ([after]) => Number(after)]], line) ?? undefined;
}

// The head line of a list: what it tells, true where it tells nothing, and null where it isn't the list's.
function readHead(head, line) {
  return head instanceof RegExp ? head.test(line) || null : firstOf(head, line);
}

// The tills, that of all branches and that of one: their heads, and which sums they have. Charges are summed for all branches on days on which one was made.
const TILLS = {
  "till": { head: [[`till ${DAY}`, ([day]) => ({ day })]], sums: ["fines prices payments waivers", "fines prices payments waivers charges"] },
  "till-at": { head: [[`till ${DAY} at ${NUMBER}`, ([day, branch]) => ({ day, branch: Number(branch) })]], sums: ["payments charges"] },
};

function readTill({ head, sums }, [first, ...lines]) {
  const found = firstOf(head, first);
  const rows = lines.map((line) => firstOf([[`([a-z]+) +${NUMBER}`, ([sort, amount]) => ({ sort, amount: Number(amount) })]], line));
  return found && sums.includes(rows.map((row) => row?.sort).join(" ")) ? { head: found, rows, after: null } : null;
}

// What a question that is answered by a list was told: its head, its rows, and from where to ask on; null where the text is no such list.
export function readList(question, text) {
  const lines = text.split("\n");
  if (Object.hasOwn(TILLS, question)) return readTill(TILLS[question], lines);
  const list = LISTS[question];
  const head = list.head ? readHead(list.head, lines.shift()) : true;
  const after = readEnd(lines.pop());
  const rows = lines.map((line) => firstOf(list.rows, line));
  const isWhole = head !== null && after !== undefined && rows.every((row) => row !== null && row.place !== null);
  return isWhole ? { head: head === true ? null : head, rows, after } : null;
}
