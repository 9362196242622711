// The modules of the pages that read replies and words, on every form: run by tests/gate/pages.py.
import { deepStrictEqual as same } from "node:assert";
import { readCopy, readList } from "../../pages/questions.js";
import { readAnswer, readReply, readPage } from "../../pages/replies.js";
import { daysBetween, isDay, today } from "../../pages/days.js";
import { calendarOf } from "../../pages/due_days.js";
import { QUESTIONS, centsOf, commandBegun, holdBody, isBarcode, isKey, isNumber, readLine, wordsTyped } from "../../pages/commands.js";
import { Door, newKey } from "../../pages/asking.js";
import { marked, plain } from "../../pages/isolating.js";
import { problemOfLine, problemOfWords } from "../../pages/misread.js";
import * as saying from "../../pages/saying.js";
import * as tables from "../../pages/tables.js";
import { csvOf, fileNameOf, sorted, sortedNext } from "../../pages/sheet.js";
import { LANGUAGE, MEANINGS, TEXTS, amount, branchName, languageOf, say } from "../../pages/texts.js";
import * as german from "../../pages/texts_de.js";
import { Kept, network } from "../lib/network.mjs";

// what is said and shown, without the marks of names
const { withoutCardKey } = saying;
const { expiredHold, headOf, wordsOfQuestion } = tables;
const said = (reply) => plain(saying.said(reply));
const saidFully = (...of) => plain(saying.saidFully(...of));
const whereIs = (place) => plain(saying.whereIs(place));
const pageLinesMarked = ({ loans, holds }, untils) => [...loans.map(saying.loanLine), ...holds.map((hold) => saying.holdLine(hold, untils))];
const pageLines = (...of) => pageLinesMarked(...of).map(plain);
function tableOf(...of) {
  const { head, columns, rows } = tables.tableOf(...of);
  return { head: plain(head), columns, rows: rows.map((cells) => cells.map(plain)) };
}

// the words of a line that can be read, and whether they are a command
const wordsOf = (line) => (readLine(line).rest === "" ? readLine(line).words : null);
const isCommand = (words) => words !== null && problemOfWords(words) === null;

let tried = 0;
function is(one, other) {
  same(one, other);
  tried += 1;
}

// ---- each form of a reply
is(readReply("ok"), { kind: "done" });
is(readReply("loan 1 due 2026-03-09"), { kind: "lent", loan: 1, due: "2026-03-09" });
is(readReply("hold 7"), { kind: "held", hold: 7 });
is(readReply("owed 0"), { kind: "owed", owed: 0 });
is(readReply("owed 4503599627370495"), { kind: "owed", owed: 4503599627370495 });
is(readReply("fine 100 price 1200"), { kind: "lost", fine: 100, price: 1200 });
const places = [
  ["shelf 2", { to: "shelf", branch: 2 }],
  ["ready 1 at 2 until 2026-03-05", { to: "hold shelf", hold: 1, branch: 2, until: "2026-03-05" }],
  ["transit 2 for 9", { to: "branch", branch: 2, hold: 9 }],
  ["transit 2", { to: "branch", branch: 2, hold: null }],
];
for (const [text, place] of places) {
  is(readReply(text), { kind: "moved", place });
  is(readReply(`fine 0 ${text}`), { kind: "checked in", fine: 0, place });
}

// ---- pages, of which each line is one of five
const page = [
  "patron 2 owed 40 name Bo Carr",
  "loan 1 due 2026-03-09 renewals 0 title 100 Rivers of the North",
  "hold 1 at 1 waiting title 200 Salt Roads",
  "hold 2 at 2 waiting from 2026-04-01 title 300 due 2026-03-09 renewals 1 title 5",
  "hold 3 at 2 ready title 400 Winter Bees",
];
is(readReply(page.join("\n")), {
  kind: "page",
  patron: 2,
  owed: 40,
  name: "Bo Carr",
  loans: [{ line: "loan", loan: 1, due: "2026-03-09", renewals: 0, title: 100, text: "Rivers of the North" }],
  holds: [
    { line: "hold", hold: 1, branch: 1, state: "waiting", from: null, title: 200, text: "Salt Roads" },
    { line: "hold", hold: 2, branch: 2, state: "waiting", from: "2026-04-01", title: 300, text: "due 2026-03-09 renewals 1 title 5" },
    { line: "hold", hold: 3, branch: 2, state: "ready", from: null, title: 400, text: "Winter Bees" },
  ],
});
is(readPage("patron 1 owed 0 name Ann Bell").loans, []);
// a title may have a form of a line in it
is(readPage("patron 1 owed 0 name X\nhold 1 at 1 waiting title 2 from 2026-01-01 title 3 Y").holds[0].text, "from 2026-01-01 title 3 Y");

// lines are cut at a newline alone: a name or title may have any other character
for (const odd of ["A\u2028B", "A\u2029B", "A\u0085B", "\u{1f41d} Bees"]) {
  is(readReply(`patron 1 owed 0 name ${odd}\nloan 1 due 2026-03-09 renewals 0 title 2 ${odd}\nhold 1 at 1 ready title 3 ${odd}`).name, odd);
  is(readPage(`patron 1 owed 0 name X\nloan 1 due 2026-03-09 renewals 0 title 2 ${odd}`).loans[0].text, odd);
  is(readReply(`copy 10 home 1 kind 1 price 2500 title 100 ${odd}\nloan 1 due 2026-03-09 patron 1 ${odd}`).lines.length, 2);
}

// ---- what a question is shown
const asked = [
  "copy 10 home 1 kind 1 price 2500 title 100 Rivers of the North\nshelf 1",
  "copy 10 home 1 kind 1 price 2500 title 100 Rivers of the North\nloan 1 due 2026-03-09 patron 1 Ann Bell",
  "title 100 Rivers of the North\ncopy 10 loan 1 due 2026-03-09\ncopy 11 transit 1 for 1\nend",
  "title 100 Rivers of the North\nhold 1 patron 2 at 1\nhold 3 patron 1 at 1 from 2026-04-01\nafter 3",
  "patron 1 owed 100 name Ann Bell\nline 1 2026-03-17 fine 100 loan 1 title 100 Rivers of the North\nend",
  "patron 1 owed 70 name Ann Bell\nend",
  "      hold    copy  patron until      title\n         1      11       2 2026-03-07 Rivers of the North\nend",
  "hold 1 copy 11 title 100 Rivers of the North\nend",
  "copy 11 for 1 title 100 Rivers of the North\nend",
  "till 2026-03-17\nfines                100\nprices                 0\npayments              30\nwaivers                0",
  "till 2026-03-03 at 1\npayments               0\ncharges              250",
  "copy 10 home 1 kind 2 price 3000 title 100 Rivers of the East\nloan 2 due 2026-03-16 patron 2 Bo Carr\nbarcode 30000100000010",
  "patron 4 owed 0 name Åsa Ångström-Łuć\nafter 4",
  "title 400 2 × 2 Œuvres\nend",
  "after 24996",
  "branch 1 pickup 5 week ooooooc name Main\nbranch 2 pickup 3 week coooooc name Harbour\nend",
  "day 2026-03-03\nday 2026-03-10\nafter 20522",
  "kind 1 loans 5 holds 5 debt 500\nend",
  "rule 1 1 period 6 renewals 1 rate 20 cap 100 grace 0\nend",
  "end",
];
for (const text of asked) is(readReply(text), { kind: "shown", lines: text.split("\n") });
is(readReply("patron 1 owed 0 name Ann Bell").kind, "page");
is(readReply("today 2026-03-02"), { kind: "day", day: "2026-03-02" });
is(readReply("patron 1 owed 20 name Ann Özil\nkind 2"), { kind: "borrower", patron: 1, owed: 20, name: "Ann Özil", patronKind: 2, barcode: null });
is(readReply("patron 1 owed 0 name Ann Özil\nkind 2\nbarcode 20000000000001"), { kind: "borrower", patron: 1, owed: 0, name: "Ann Özil", patronKind: 2, barcode: "20000000000001" });
is(["copy 10", "patron 1"].map(readReply), [{ kind: "found", of: "copy", number: 10 }, { kind: "found", of: "patron", number: 1 }]);
is(["copy 10", "patron 1", "patron 1 owed 0 name Ann Özil\nkind 2\nbarcode 01"].map((text) => said(readReply(text))),
  ["This is the barcode of copy 10.", "This is the barcode of patron 1.", "Patron 1, Ann Özil: kind 2, owes 0.00. Barcode 01."]);
is([readReply("today 2026-03-02"), readReply("patron 1 owed 20 name Ann Özil\nkind 2")].map((reply) => said(reply)), ["Today is 2026-03-02.", "Patron 1, Ann Özil: kind 2, owes 0.20."]);
is(isCommand(wordsOf("pulls 1 0")), true);
is(isCommand(wordsOf("pulls 1")), false);
is(["today", "borrower 1", "find-patrons 0 'bell an'", "card-key 1 newkey000001", "amend-title 100 Rivers"].map((line) => isCommand(wordsOf(line))), Array(5).fill(true));
is(["branches 0", "closed-days 1 20515", "kinds 0", "rules 1 0", "missing-copies 0", "loans 10 0"].map((line) => isCommand(wordsOf(line))), Array(6).fill(true));
is(["branches", "closed-days 1", "kinds 0 0", "rules 1", "missing-copies", "loans 10"].map((line) => isCommand(wordsOf(line))), Array(6).fill(false));
is(["branches", "closed-days", "kinds", "rules", "missing-copies", "loans", "find-titles", "close-day", "missing"].map((name) => QUESTIONS.includes(name)), [true, true, true, true, true, true, true, false, false]);
is(["today 1", "borrower", "find-patrons 0 bell an", "find-titles 0", "card-key 1"].map((line) => isCommand(wordsOf(line))), Array(5).fill(false));
is(["copy 1", "copies 1", "cop"].map(commandBegun), ["copy", "copies", null]);

// ---- a copy, and each place that it may have
const places7 = [
  ["shelf 1", { to: "shelf", branch: 1 }],
  ["ready 1 at 2 until 2026-03-07 patron 2 Bo Carr", { to: "hold shelf", hold: 1, branch: 2, until: "2026-03-07", patron: 2, name: "Bo Carr" }],
  ["transit 1 for 3 patron 2 Bo Carr", { to: "branch", branch: 1, hold: 3, patron: 2, name: "Bo Carr" }],
  ["transit 1", { to: "branch", branch: 1, hold: null }],
  ["loan 1 due 2026-03-09 patron 1 Ann Bell", { to: "loan", loan: 1, due: "2026-03-09", patron: 1, name: "Ann Bell" }],
  ["missing", { to: "missing" }],
  ["withdrawn", { to: "withdrawn" }],
];
const rivers = { copy: 10, home: 1, kind: 2, price: 2500, title: 100, text: "Rivers of the North" };
for (const [text, place] of places7) {
  is(readCopy(`copy 10 home 1 kind 2 price 2500 title 100 Rivers of the North\n${text}`), { ...rivers, place, barcode: null });
  is(readCopy(`copy 10 home 1 kind 2 price 2500 title 100 Rivers of the North\n${text}\nbarcode 01`), { ...rivers, place, barcode: "01" });
}
for (const text of ["copy 10 home 1 kind 2 price 2500 title 100 Rivers", "copy 10 home 1 kind 2 price 2500 title 100 Rivers\nnowhere", "copy 10\nshelf 1", "copy 10 home 1 kind 2 price 2500 title 100 R\nshelf 1\nend",
  "copy 10 home 1 kind 2 price 2500 title 100 R\nshelf 1\nbarcode A-1", "copy 10 home 1 kind 2 price 2500 title 100 R\nbarcode 01", "copy 10 home 1 kind 2 price 2500 title 100 R\nshelf 1\nbarcode 01\nend",
  "copy 10 home 1 kind 2 price 2500 title 100 R\nready 1 at 2 until 2026-03-07", "loan 1 due 2026-03-09"]) {
  is(readCopy(text), null);
}

// ---- each list: its head, its rows, and from where it goes on
const rows = (question, text) => readList(question, text)?.rows;
is(readList("pulls", "end"), { head: null, rows: [], after: null });
is(readList("pulls", "hold 2 copy 11 title 100 Rivers of the North\nafter 2"), { head: null, rows: [{ hold: 2, copy: 11, title: 100, text: "Rivers of the North" }], after: 2 });
is(rows("transits", "copy 20 for 1 title 200 Salt Roads\ncopy 21 title 300 for 5 title 6\nend"),
  [{ copy: 20, hold: 1, title: 200, text: "Salt Roads" }, { copy: 21, hold: null, title: 300, text: "for 5 title 6" }]);
is(readList("shelf", "      hold    copy  patron until      title\n         1      20       2 2026-03-07 Salt Roads\nend"),
  { head: null, rows: [{ hold: 1, copy: 20, patron: 2, until: "2026-03-07", text: "Salt Roads" }], after: null });
is(rows("shelf", "      hold    copy  patron until      title\n2147483647 9999999 9999999 2026-03-07 1 2\nafter 2147483647"), [{ hold: 2147483647, copy: 9999999, patron: 9999999, until: "2026-03-07", text: "1 2" }]);
is(rows("overdue", "      loan  patron    copy due         late title\n         1       1      10 2026-03-09     7 Rivers of the North\n         2       2      20 2026-03-09     0 Salt Roads\nend"), [
  { loan: 1, patron: 1, copy: 10, due: "2026-03-09", late: 7, text: "Rivers of the North" }, { loan: 2, patron: 2, copy: 20, due: "2026-03-09", late: 0, text: "Salt Roads" }]);
is(rows("debts", "patron 2 owed 1300 name Bo Carr\nend"), [{ patron: 2, owed: 1300, name: "Bo Carr" }]);
is(readList("find-patrons", "patron 1001 owed 0 name Zoë Sand\npatron 1002 owed 5 name Zoë Sand\nafter 1100"),
  { head: null, rows: [{ patron: 1001, owed: 0, name: "Zoë Sand" }, { patron: 1002, owed: 5, name: "Zoë Sand" }], after: 1100 });
is(readList("find-titles", "title 400 2 × 2 Œuvres\nend"), { head: null, rows: [{ title: 400, text: "2 × 2 Œuvres" }], after: null });
is(readList("branches", "branch 1 pickup 5 week ooooooc name Main\nbranch 99 pickup 0 week coooooc name week ooooooo name X\nend"), {
  head: null, rows: [{ branch: 1, pickup: 5, week: "ooooooc", name: "Main" }, { branch: 99, pickup: 0, week: "coooooc", name: "week ooooooo name X" }], after: null });
is(readList("closed-days", "day 2026-03-03\nday 2199-12-31\nafter 84005"), { head: null, rows: [{ day: "2026-03-03" }, { day: "2199-12-31" }], after: 84005 });
is(readList("kinds", "kind 1 loans 5 holds 0 debt 1000000\nend"), { head: null, rows: [{ kind: 1, loans: 5, holds: 0, debt: 1000000 }], after: null });
is(readList("rules", "rule 1 2 period 12 renewals 1 rate 20 cap 100 grace 3\nend"),
  { head: null, rows: [{ kind: 1, copyKind: 2, period: 12, renewals: 1, rate: 20, cap: 100, grace: 3 }], after: null });
is(readList("missing-copies", "copy 20 home 2 title 200 Salt Roads\ncopy 50 home 1 title 400 2 × 2 Œuvres\nafter 50"), {
  head: null, rows: [{ copy: 20, home: 2, title: 200, text: "Salt Roads" }, { copy: 50, home: 1, title: 400, text: "2 × 2 Œuvres" }], after: 50 });
is(readList("loans", "loan 1 patron 1 made 2026-03-02 due 2026-03-09 ended 2026-03-03\nloan 2 patron 2 made 2026-03-03 due 2026-03-09\nend"), {
  head: null, after: null,
  rows: [{ loan: 1, patron: 1, made: "2026-03-02", due: "2026-03-09", ended: "2026-03-03" }, { loan: 2, patron: 2, made: "2026-03-03", due: "2026-03-09", ended: null }] });
is(["branches", "closed-days", "kinds", "rules", "missing-copies", "loans"].map((question) => readList(question, "end")), Array(6).fill({ head: null, rows: [], after: null }));
// a search may go on where it has found nothing yet
is(["find-patrons", "find-titles"].map((question) => readList(question, "after 24996")), Array(2).fill({ head: null, rows: [], after: 24996 }));
is(readList("account", "patron 1 owed 40 name Ann Bell\nline 1 2026-03-17 fine 100 loan 1 title 100 Rivers of the North\nline 2 2026-03-17 payment 60\nline 3 2026-03-17 waiver 5\nline 4 2026-03-18 price 5 loan 2 title 200 A\nend"), {
  head: { patron: 1, owed: 40, name: "Ann Bell" },
  rows: [
    { line: 1, day: "2026-03-17", sort: "fine", amount: 100, branch: null, text: "Rivers of the North", loan: 1, title: 100 },
    { line: 2, day: "2026-03-17", sort: "payment", amount: 60, branch: null, text: null },
    { line: 3, day: "2026-03-17", sort: "waiver", amount: 5, branch: null, text: null },
    { line: 4, day: "2026-03-18", sort: "price", amount: 5, branch: null, text: "A", loan: 2, title: 200 },
  ],
  after: null,
});
is(rows("account", "patron 2 owed 150 name Bo Carr\nline 1 2026-03-03 charge 250 at 1 for Photocopies, 10 pages\nline 2 2026-03-03 payment 100 at 2\nend"), [
  { line: 1, day: "2026-03-03", sort: "charge", amount: 250, branch: 1, text: "Photocopies, 10 pages" }, { line: 2, day: "2026-03-03", sort: "payment", amount: 100, branch: 2, text: null }]);
is(readList("queue", "title 100 Rivers of the North\nhold 2 patron 3 at 2\nhold 3 patron 1 at 1 from 2026-04-01\nend"), {
  head: { title: 100, text: "Rivers of the North" },
  rows: [{ hold: 2, patron: 3, branch: 2, from: null }, { hold: 3, patron: 1, branch: 1, from: "2026-04-01" }],
  after: null,
});
is(rows("copies", "title 100 Rivers of the North\ncopy 10 loan 1 due 2026-03-09\ncopy 11 transit 1 for 1\ncopy 12 ready 1 at 2 until 2026-03-07\ncopy 13 shelf 1\ncopy 14 transit 2\ncopy 15 missing\ncopy 16 withdrawn\nend").map(({ place }) => place), [
  { to: "loan", loan: 1, due: "2026-03-09" }, { to: "branch", branch: 1, hold: 1 }, { to: "hold shelf", hold: 1, branch: 2, until: "2026-03-07" }, { to: "shelf", branch: 1 },
  { to: "branch", branch: 2, hold: null }, { to: "missing" }, { to: "withdrawn" }]);
is(readList("till", "till 2026-03-17\nfines                200\nprices              1200\npayments            1360\nwaivers               40"), {
  head: { day: "2026-03-17" }, rows: [{ sort: "fines", amount: 200 }, { sort: "prices", amount: 1200 }, { sort: "payments", amount: 1360 }, { sort: "waivers", amount: 40 }], after: null });
is(readList("till", "till 2026-03-03\nfines                  0\nprices                 0\npayments             150\nwaivers               20\ncharges              250").rows.at(-1), { sort: "charges", amount: 250 });
is(readList("till-at", "till 2026-03-03 at 2\npayments             100\ncharges                0"), {
  head: { day: "2026-03-03", branch: 2 }, rows: [{ sort: "payments", amount: 100 }, { sort: "charges", amount: 0 }], after: null });
for (const [question, text] of [["pulls", ""], ["till-at", "till 2026-03-03\npayments 1\ncharges 0"], ["till-at", "till 2026-03-03 at 2\npayments 1"], ["till", "till 2026-03-03 at 2\npayments 1\ncharges 0"],
  ["till", "till 2026-03-03\nfines 0\nprices 0\ncharges 0\npayments 0\nwaivers 0"], ["account", "patron 2 owed 150 name Bo Carr\nline 1 2026-03-03 charge 250 at 1\nend"],
  ["account", "patron 2 owed 150 name Bo Carr\nline 1 2026-03-03 waiver 250 at 1\nend"], ["pulls", "hold 2 copy 11 title 100 Rivers"], ["pulls", "copy 11 title 100 R\nend"], ["shelf", "end"], ["shelf", "      loan  patron    copy due         late title\nend"],
  ["queue", "end"], ["copies", "title 1 A\ncopy 10 nowhere\nend"], ["account", "end"], ["till", "till 2026-03-17\nfines 1"], ["debts", "after"], ["transits", "title 1 A\nend"], ["find-patrons", "title 1 A\nend"],
  ["find-titles", "patron 1 owed 0 name A\nend"], ["find-titles", "title 1 A"],
  ["branches", "branch 1 pickup 5 week oooooo name Main\nend"], ["branches", "branch 1 pickup 5 week ooooooc name\nend"], ["closed-days", "day 2026-3-3\nend"], ["closed-days", "day 2026-03-03"],
  ["kinds", "kind 1 loans 5 holds 5\nend"], ["rules", "rule 1 period 6 renewals 1 rate 20 cap 100 grace 0\nend"], ["rules", "rule 1 1 period 6 renewals 1 rate 20 cap 100\nend"],
  ["missing-copies", "copy 20 title 200 Salt Roads\nend"], ["missing-copies", "copy 20 home 2 title 200 Salt Roads"], ["loans", "loan 1 patron 1 made 2026-03-02\nend"], ["loans", "loan 1 patron 1 made 2026-03-02 due 2026-03-09 ended\nend"]]) {
  is(readList(question, text), null);
}

// ---- each list as a table
const table = (question, text) => tableOf(question, readList(question, text));
is(table("pulls", "hold 2 copy 11 title 100 Rivers of the North\nend"), { head: "Pull list", columns: ["Copy", "Title", "Hold"], rows: [["11", "Rivers of the North", "2"]] });
is(table("shelf", "      hold    copy  patron until      title\n         1      20       2 2026-03-07 Salt Roads\nend"),
  { head: "On the hold shelf", columns: ["Hold", "Copy", "Patron", "Name", "Until", "Title"], rows: [["1", "20", "2", "", "2026-03-07", "Salt Roads"]] });
is(table("overdue", "      loan  patron    copy due         late title\n         1       3      10 2026-03-09     7 Rivers of the North\nend"),
  { head: "Overdue", columns: ["Loan", "Patron", "Name", "Copy", "Due", "Days late", "Title"], rows: [["1", "3", "", "10", "2026-03-09", "7", "Rivers of the North"]] });
// names come after the rows: each patron is asked about once, and what is named stands in its column, marked
const late = [[1, 3], [2, 5], [3, 3]].map(([loan, patron]) => ({ loan, patron, copy: 10, due: "2026-03-09", late: 7, text: "Rivers of the North" }));
is(["overdue", "shelf", "loans", "queue", "debts", "pulls"].map((question) => tables.namelessOf(question, late)), [...Array(4).fill([3, 5]), [], []]);
late[1].name = "Ed Fox";
is([tables.namelessOf("overdue", late), tables.tableOf("overdue", { head: null, rows: late }).rows.map((cells) => cells[2])], [[3], ["", marked("Ed Fox"), ""]]);
is(table("transits", "copy 20 for 1 title 200 Salt Roads\ncopy 21 title 300 Maps\nend").rows, [["20", "Salt Roads", "1"], ["21", "Maps", ""]]);
is(table("debts", "patron 2 owed 1300 name Bo Carr\nend"), { head: "Patrons who owe, all branches", columns: ["Patron", "Name", "Owes"], rows: [["2", "Bo Carr", "13.00"]] });
const found = (question, text) => tableOf(question, { ...readList(question, text), head: { sought: "zoe" } });
is(found("find-patrons", "patron 1001 owed 5 name Zoë Sand\nend"), { head: "Patrons found by zoe", columns: ["Patron", "Name", "Owes"], rows: [["1001", "Zoë Sand", "0.05"]] });
is(found("find-titles", "title 300 Zoë\nafter 300"), { head: "Titles found by zoe", columns: ["Title number", "Title"], rows: [["300", "Zoë"]] });
// what is set: a list is told by what was asked about, and without a row too
const told = (question, about, text) => tableOf(question, { ...readList(question, text), head: headOf(question, about) });
is(told("branches", 1, "branch 1 pickup 5 week ooooooc name Main\nbranch 3 pickup 0 week cocococ name Hill\nbranch 4 pickup 60 week ooooooo name Quay\nend"), {
  head: "Branches", columns: ["Branch", "Name", "Closed on", "Pick-up days"],
  rows: [["1", "Main", "Sun", "5"], ["3", "Hill", "Mon, Wed, Fri, Sun", "0"], ["4", "Quay", "", "60"]],
});
is(told("closed-days", 2, "day 2026-03-03\nday 2026-03-10\nend"), { head: "Days closed singly, branch 2", columns: ["Day"], rows: [["2026-03-03"], ["2026-03-10"]] });
is(told("closed-days", 1, "end"), { head: "Days closed singly, branch 1", columns: ["Day"], rows: [] });
is(told("kinds", 1, "kind 1 loans 5 holds 4 debt 505\nend"), { head: "Kinds of patrons", columns: ["Kind", "Loans", "Holds", "May owe"], rows: [["1", "5", "4", "5.05"]] });
is(told("rules", "2", "rule 2 1 period 28 renewals 2 rate 20 cap 1000 grace 3\nend"), {
  head: "Rules of patrons of kind 2", columns: ["Kind of copies", "Days", "Renewals", "A day late", "At most", "Grace days"], rows: [["1", "28", "2", "0.20", "10.00", "3"]] });
is(told("missing-copies", 1, "copy 20 home 2 title 200 Salt Roads\nend"), {
  head: "Missing copies", columns: ["Copy", "Title", "Title number", "Home"], rows: [["20", "Salt Roads", "200", "branch 2"]] });
is(told("loans", "10", "loan 1 patron 1 made 2026-03-02 due 2026-03-09 ended 2026-03-03\nloan 2 patron 2 made 2026-03-03 due 2026-03-09\nend"), {
  head: "Loans of copy 10", columns: ["Loan", "Patron", "Name", "Lent", "Due", "Ended"], rows: [["1", "1", "", "2026-03-02", "2026-03-09", "2026-03-03"], ["2", "2", "", "2026-03-03", "2026-03-09", ""]] });
is(told("loans", "11", "end"), { head: "Loans of copy 11", columns: ["Loan", "Patron", "Name", "Lent", "Due", "Ended"], rows: [] });
is([wordsOfQuestion("missing-copies", 1, 20), wordsOfQuestion("loans", "10", 1)], [["missing-copies", 20], ["loans", "10", 1]]);
is(["pulls", "copies", "find-patrons", "find-titles", "branches", "kinds"].map((question) => headOf(question, "an")), [null, null, { sought: "an" }, { sought: "an" }, null, null]);
is(table("account", "patron 1 owed 40 name Ann Bell\nline 1 2026-03-17 fine 100 loan 1 title 100 Rivers of the North\nline 2 2026-03-17 payment 60\nend"), {
  head: "Account of Ann Bell, patron 1: owes 0.40", columns: ["Line", "Day", "What", "Amount", "For"],
  rows: [["1", "2026-03-17", "fine", "1.00", "Rivers of the North"], ["2", "2026-03-17", "payment", "0.60", ""]],
});
is(table("till", "till 2026-03-17\nfines                200\nprices              1200\npayments            1360\nwaivers               40"), {
  head: "Till of all branches, 2026-03-17", columns: ["Sum of", "Amount"], rows: [["fines", "2.00"], ["prices", "12.00"], ["payments", "13.60"], ["waivers", "0.40"]] });
// where money was taken or charged stands beside what it was, and the till of one branch is headed by its name
is(table("account", "patron 2 owed 150 name Bo Carr\nline 1 2026-03-03 charge 250 at 1 for Photocopies, 10 pages\nline 2 2026-03-03 payment 100 at 2\nend").rows,
  [["1", "2026-03-03", "charge at branch 1", "2.50", "Photocopies, 10 pages"], ["2", "2026-03-03", "payment at branch 2", "1.00", ""]]);
is(table("till-at", "till 2026-03-03 at 1\npayments               0\ncharges              250"), {
  head: "Till of branch 1, 2026-03-03", columns: ["Sum of", "Amount"], rows: [["payments", "0.00"], ["charges", "2.50"]] });
is(["pulls", "shelf", "transits", "overdue", "till-at", "till", "debts", "missing-copies", "find-patrons", "account", "kinds"].map(tables.isOfBranch), [...Array(5).fill(true), ...Array(6).fill(false)]);
is(wordsOfQuestion("till-at", "2026-03-03", 0, "2"), ["till-at", "2", "2026-03-03"]);
is(table("queue", "title 100 Rivers of the North\nhold 2 patron 3 at 2\nhold 3 patron 1 at 1 from 2026-04-01\nend"), {
  head: "Who waits for Rivers of the North, title 100", columns: ["Hold", "Patron", "Name", "Pick-up at", "From"], rows: [["2", "3", "", "branch 2", ""], ["3", "1", "", "branch 1", "2026-04-01"]] });
is(table("copies", "title 100 Rivers of the North\ncopy 10 loan 1 due 2026-03-09\ncopy 11 transit 1 for 1\ncopy 15 missing\nend"), {
  head: "Copies of Rivers of the North, title 100", columns: ["Copy", "Where"],
  rows: [["10", "Loan 1, due 2026-03-09."], ["11", "In transit to branch 1, for hold 1."], ["15", "Missing."]],
});
is(places7.map(([text]) => whereIs(readCopy(`copy 10 home 1 kind 2 price 2500 title 100 R\n${text}`).place)), ["On the shelf, branch 1.", "Ready for Bo Carr, hold 1, at branch 2 until 2026-03-07.",
  "In transit to branch 1, for Bo Carr, hold 3.", "In transit to branch 1.", "On loan to Ann Bell, due 2026-03-09.", "Missing.", "Withdrawn."]);
is(["pulls", "overdue"].map((question) => wordsOfQuestion(question, 1, 100)), [["pulls", 1, 100], ["overdue", 1, 100]]);
is([wordsOfQuestion("copy", 10, 0), wordsOfQuestion("till", "2026-03-17", 0), wordsOfQuestion("debts", 1, 7), wordsOfQuestion("account", 3, 5)], [["copy", 10], ["till", "2026-03-17"], ["debts", 7], ["account", 3, 5]]);
is([wordsOfQuestion("branches", 1, 7), wordsOfQuestion("kinds", 1, 0), wordsOfQuestion("closed-days", 1, 20515), wordsOfQuestion("rules", "2", 9)], [["branches", 7], ["kinds", 0], ["closed-days", 1, 20515], ["rules", "2", 9]]);
is(["find-patrons", "find-titles"].map((question) => wordsOfQuestion(question, "bell an", 1100)), [["find-patrons", 1100, "bell an"], ["find-titles", 1100, "bell an"]]);

// ---- a ready hold whose day is over can leave the hold shelf, and no other
const ready = { hold: 7, until: "2026-03-07" };
is([expiredHold("shelf", ready, "2026-03-08"), expiredHold("shelf", ready, "2026-03-07"), expiredHold("shelf", ready, null), expiredHold("overdue", { loan: 1, due: "2026-03-02" }, "2026-03-08"), expiredHold("pulls", { hold: 7 }, "2026-03-08")],
  [7, null, null, null, null]);

// ---- a table is sorted by a column, numbers and amounts as such, with what is empty last, and is saved for a spreadsheet
const owing = [["9", "Zoë, \"Z\"", "0.50"], ["10", "Ann", ""], ["8", "bo", "13.00"], ["11", "Ann", "2.00"]];
const by = (column, isDown) => sorted(owing, { column, isDown }).map(([number]) => number);
is([by(0, false), by(0, true)], [["8", "9", "10", "11"], ["11", "10", "9", "8"]]);
is([by(1, false), by(1, true)], [["10", "11", "8", "9"], ["9", "8", "10", "11"]]);
is([by(2, false), by(2, true)], [["9", "11", "8", "10"], ["8", "11", "9", "10"]]);
is(sorted([["2026-03-10"], ["2026-03-09"]], { column: 0, isDown: false }), [["2026-03-09"], ["2026-03-10"]]);
is(owing[0][0], "9");
is([sortedNext(null, 2), sortedNext({ column: 2, isDown: false }, 2), sortedNext({ column: 2, isDown: true }, 2), sortedNext({ column: 2, isDown: true }, 0)],
  [{ column: 2, isDown: false }, { column: 2, isDown: true }, { column: 2, isDown: false }, { column: 0, isDown: false }]);
is(csvOf({ columns: ["Patron", "Name"], rows: [["9", marked('Zoë, "Z"')], ["10", ""], ["11", "two\nlines"]] }), 'Patron,Name\r\n9,"Zoë, ""Z"""\r\n10,\r\n11,"two\nlines"\r\n');
is([fileNameOf("debts", "2026-03-02"), fileNameOf("kinds", null)], ["debts-2026-03-02.csv", "kinds.csv"]);

// ---- what is shown of words, and of a copy that has another home
is([["card-key", "1", "newkey000001"], ["patron", "4", "1", "cardkey00004", "Di"], ["amend-patron", "4", "1", "Di"]].map(withoutCardKey), [["card-key", "1", ""], ["patron", "4", "1", "", "Di"], ["amend-patron", "4", "1", "Di"]]);
is(saidFully(["rehome", "10", "2"], readReply("ok"), { copy: readCopy("copy 10 home 2 kind 1 price 2500 title 100 Rivers\ntransit 2") }), "Rivers: Done. In transit to branch 2.");

// ---- a patron's page as the desk shows it
is(pageLines(readPage(page.join("\n")), { 3: "2026-03-07" }), [
  "Rivers of the North, loan 1, due 2026-03-09, no renewal left",
  "Salt Roads, hold 1, waiting, to be picked up at branch 1",
  "due 2026-03-09 renewals 1 title 5, hold 2, waiting from 2026-04-01, to be picked up at branch 2",
  "Winter Bees, hold 3, ready at branch 2 until 2026-03-07",
]);
is(pageLines(readPage(page.join("\n")), {}).at(-1), "Winter Bees, hold 3, ready at branch 2");

// ---- names and titles are marked wherever they stand, and what is marked is nothing else
const marks = (texts) => texts.flatMap((text) => text.match(/\u0002[^\u0003]*\u0003/g) ?? []).map(plain);
const bees = "שרה 42";
is(marks(pageLinesMarked(readPage(`patron 1 owed 0 name ${bees}\nloan 1 due 2026-03-09 renewals 0 title 2 ${bees}\nhold 1 at 1 ready title 3 B`), {})), [bees, "B"]);
is(marks([saying.said(readReply(`patron 1 owed 0 name ${bees}`)), saying.whereIs({ to: "loan", loan: 1, due: "2026-03-09", name: bees }), saying.shownWords(["amend-title", "1", bees]),
  saying.shownWords(["find-patrons", "0", bees]), saying.shownWords(["check-out", "1", "2", "3"]), saying.shownWords(["patron", "7", "1", "cardkey00007", bees]), saying.saidNo({ refusal: 36 })]), Array(5).fill(bees));
const cellsOf = (question, text) => tables.tableOf(question, readList(question, text)).rows[0];
is(marks(["pulls", "overdue", "find-titles", "branches"].flatMap((question, at) => cellsOf(question, [`hold 2 copy 11 title 100 ${bees}\nend`,
  `      loan  patron    copy due         late title\n         1       3      10 2026-03-09     7 ${bees}\nend`, `title 1 ${bees}\nend`, `branch 1 pickup 5 week ooooooc name ${bees}\nend`][at]))), Array(4).fill(bees));
is(marks([tables.tableOf("queue", readList("queue", `title 1 ${bees}\nend`)).head, tables.tableOf("find-patrons", { head: { sought: bees }, rows: [] }).head]), [bees, bees]);
is([plain(marked(bees)), marked("")], [bees, "\u0002\u0003"]);

// ---- what is none
for (const text of ["", "ended", "an end", "after", "after 3\nend of it", "today", "today 2026-3-2", "patron 1 owed 20 name Ann\nkind", "title 100 A\nafter", "copy 10 home 1", "till 2026-03-17", "okay", "ok\n", "loan 01 due 2026-03-09", "loan 1 due 2026-3-9", "hold", "fine 0 nowhere 1", "fine 0", "transit 1 for", "page",
  "patron 1 owed 0 name", "patron 1 owed 0 name A\nloan 1", "patron 1 owed 0 name A\n", "refused 10"]) {
  is(readReply(text), null);
}

// ---- whole answers
is(readAnswer(200, '{"reply":"hold 7"}'), { reply: { kind: "held", hold: 7 }, text: "hold 7" });
is(readAnswer(403, '{"refusal":81}'), { refusal: 81 });
is(readAnswer(409, '{"refusal":36}'), { refusal: 36 });
is(readAnswer(503, '{"fault":92}'), { fault: 92 });
for (const status of [400, 404, 405, 413]) is(readAnswer(status, `{"status":${status}}`), { status });
is([readAnswer(429, "<html>"), plain(saying.saidNo({ status: 429 }))], [{ status: 429 }, "Too many requests at once. Nothing was done: wait a minute and try again."]);
for (const [status, body] of [[200, "ok"], [200, '{"reply":"what"}'], [403, "<html>"], [502, "<html>"], [503, "<html>"], [503, '{"reply":"ok"}'], [200, "null"], [400, '{"status":404}'], [500, '{"fault":91}']]) {
  is(readAnswer(status, body), { strange: status });
}

// ---- words and amounts
is(wordsOf("acquire 10 100 1 1 2500 'Rivers of the North'"), ["acquire", "10", "100", "1", "1", "2500", "Rivers of the North"]);
is(wordsOf('patron 1 1 cardkey00001 "Ann O\'Hara" '), ["patron", "1", "1", "cardkey00001", "Ann O'Hara"]);
is(wordsOf("patron 1 'Ann"), null);
is(wordsOf("  "), []);
is(isCommand(wordsOf("renew 1")), true);
is(isCommand(wordsOf("renew")), false);
is(isCommand(wordsOf("renew 1 2")), false);
is(isCommand(wordsOf("toString 1")), false);
is(isCommand(wordsOf("place-hold 2 100 1")), true);
is(isCommand(wordsOf("place-hold 2 100 1 2026-03-05")), false);
is(isCommand(wordsOf("place-hold-from 2 100 1 2026-03-05")), true);
is(isCommand(wordsOf("place-hold-from 2 100 1")), false);
is(["place-hold 2", "place-hold-from 2", " place-hold-from", "place-hold-fro 2"].map(commandBegun), ["place-hold", "place-hold-from", "place-hold-from", null]);
is(isCommand(wordsOf("grace 1 1 2")), true);
is(isCommand(wordsOf("grace 1 1")), false);
is(isCommand(null), false);
is(["0", "1", "4294967295", "4294967296", "01", "-1", "1.0", ""].map(isNumber), [true, true, true, false, false, false, false, false]);
is(["2.50", "0,05", "2", "250", "12.5", "1.005", ".5", "-1", "1.2.50"].map(centsOf), [250, 5, null, null, null, null, null, null, null]);
is(["deskkey00001", "A2345678", "short", "a".repeat(33), "key with blank", "clé234567"].map(isKey), [true, true, false, false, false, false]);
is(["30000100000010", "01", "a1", "a".repeat(24), "a".repeat(25), "", "A-1", "2.50", "é1"].map(isBarcode), [true, true, true, true, false, false, false, false, false]);
is([0, 5, 250, 100000].map(amount), ["0.00", "0.05", "2.50", "1000.00"]);
is(daysBetween("2026-03-28", "2026-03-30"), 2);
is(daysBetween("2026-03-09", "2026-03-02"), -7);
is([today(new Date(2026, 2, 9)), today(new Date(2026, 11, 31, 23, 59))], ["2026-03-09", "2026-12-31"]);
is([branchName(1), branchName(2, { 2: "Harbour" }), branchName(3, { 2: "Harbour" })], ["branch 1", "Harbour", "branch 3"]);
is(say(TEXTS.lent, { loan: 3, due: "2026-03-09" }), "Loan 3, due 2026-03-09.");

// ---- a line that isn't understood: which word, and why
for (const [line, problem] of [
  ["chek-out 1 2 3", "Unknown command chek-out; the field offers them all."],
  ["toString 1", "Unknown command toString; the field offers them all."],
  ["check-out 1", "Words after check-out: 1 instead of 3. PATRON COPY BRANCH"],
  ["today 1", "Words after today: 1 instead of 0."],
  ["find-patrons 0 bell an", "Words after find-patrons: 3 instead of 2. AFTER TEXT"],
  ["check-out 1 x 1", "copy must be a number up to 4294967295, without a leading zero: x"],
  ["check-out 1 01 1", "copy must be a number up to 4294967295, without a leading zero: 01"],
  ["renew 4294967296", "loan must be a number up to 4294967295, without a leading zero: 4294967296"],
  ["pay 1 250", "amount must be an amount such as 2.50: 250"],
  ["pay 1 2.5", "amount must be an amount such as 2.50: 2.5"],
  ["acquire 1 1 1 1 x Tides", "price must be an amount such as 2.50: x"],
  ["pay 1 42949672.96", "amount must be an amount such as 2.50: 42949672.96"],
  ["begin-day 2026-02-29", "day must be a day from 2000-01-01 to 2199-12-31, such as 2026-03-02: 2026-02-29"],
  ["week 1 ooooooo7", "mask must be seven letters, Monday to Sunday: o for open, c for closed: ooooooo7"],
  ["patron 1 1 short 'Ann Bell'", "card-key must be 8 to 32 ASCII letters and digits: short"],
  ["amend-title 1 ' Tides'", "text must be 1 to 120 bytes, with no control character and no space at either end:  Tides"],
  ["amend-title 1 ''", "text must be 1 to 120 bytes, with no control character and no space at either end: "],
  ["check-out -1 x", "No word may begin with a hyphen: -1"],
  ["copy-barcode 10 A-1", "barcode must be 1 to 24 ASCII letters and digits: A-1"],
  ["find-barcode 1234567890123456789012345", "barcode must be 1 to 24 ASCII letters and digits: 1234567890123456789012345"],
  ["charge 2 250 1 Card", "amount must be an amount such as 2.50: 250"],
  ["pay-at 2 250 1", "amount must be an amount such as 2.50: 250"],
  ["waive 2 250", "amount must be an amount such as 2.50: 250"],
  ["amend-title 1 'Tides", "A quote is not closed: 'Tides"],
  ["amend-title 1 O'Hara", "A quote is not closed: O'Hara"],
]) {
  is(plain(problemOfLine(line)), problem);
}
is(["charge 2 2.50 1 'Lost card'", "pay-at 2 2.50 1", "waive 2 0,20", "copy-barcode 10 030000100000010"].map((line) => wordsTyped(readLine(line).words).join(" ")),
  ["charge 2 250 1 Lost card", "pay-at 2 250 1", "waive 2 20", "copy-barcode 10 030000100000010"]);
is(["pay 1 2.50", "pay 1 2,50", "kind 1 5 5 5.00", "rule 1 1 28 2 0.20 10.00", "acquire 10 100 1 1 25.00 'Salt Roads'", "today", "grace 1 1 2"].map((line) => wordsTyped(readLine(line).words).join(" ")),
  ["pay 1 250", "pay 1 250", "kind 1 5 5 500", "rule 1 1 28 2 20 1000", "acquire 10 100 1 1 2500 Salt Roads", "today", "grace 1 1 2"]);
const long120 = "ö".repeat(60);
is(["begin-day 2028-02-29", `amend-title 1 ${long120}`, "week 1 ccccccc", "pay 1 42949672.95", 'patron 1 1 cardkey00001 "Ann O\'Hara"', "today"].map(problemOfLine), Array(6).fill(null));
is([problemOfLine(`amend-title 1 ${long120}x`) === null, problemOfLine("amend-title 1 'a\u0007b'") === null], [false, false]);
is(["2000-01-01", "2199-12-31", "1999-12-31", "2200-01-01", "2026-3-1", "2026-13-01", "2026-04-31", ""].map(isDay), [true, true, false, false, false, false, false, false]);

// ---- the due days as a file for a calendar: its lines end by CR LF, have at most 75 octets, and tear no letter
const moment = new Date(Date.UTC(2026, 2, 2, 9, 5, 7));
is(calendarOf([{ loan: 5, due: "2026-03-09", text: "Maps, Old; and New\\" }], moment), [
  "BEGIN:VCALENDAR", "VERSION:2.0", "PRODID:-//circ//EN", "BEGIN:VEVENT", "UID:loan-5-2026-03-09@circ", "DTSTAMP:20260302T090507Z", "DTSTART;VALUE=DATE:20260309", "SUMMARY:Due: Maps\\, Old\\; and New\\\\", "TRANSP:TRANSPARENT",
  "END:VEVENT", "END:VCALENDAR", ""].join("\r\n"));
const longLines = calendarOf([{ loan: 1, due: "2026-03-09", text: "ö".repeat(60) }, { loan: 2, due: "2026-03-10", text: bees }], moment).split("\r\n");
is(longLines.filter((line) => new TextEncoder().encode(line).length > 75), []);
is(longLines.join("\r\n").replaceAll("\r\n ", "").includes(`SUMMARY:Due: ${"ö".repeat(60)}\r\n`), true);
is([longLines.filter((line) => line.startsWith(" ")).length, longLines.filter((line) => line.includes(bees)).length, calendarOf([], moment).split("\r\n").length], [1, 1, 5]);

// ---- each other language has the same keys, fills in the same, and has a text of its own for each
const filledIn = (texts) => Object.fromEntries(Object.entries(texts).map(([key, text]) => [key, [...text.matchAll(/\{(\w+)\}/g)].map(([, part]) => part).sort()]));
const alike = ["colName", "partName", "receiptHead", "deskHead", "noDay", "refused", "refusedCopy", "ofTitle", "ofLabel", "listPlace", "actionOf", "wordsFollow"];
for (const language of [german]) {
  is([Object.keys(language.TEXTS), Object.keys(language.MEANINGS)], [Object.keys(TEXTS), Object.keys(MEANINGS)]);
  is([filledIn(language.TEXTS), filledIn(language.MEANINGS)], [filledIn(TEXTS), filledIn(MEANINGS)]);
  is(Object.keys(TEXTS).filter((key) => language.TEXTS[key] === TEXTS[key]).sort(), alike.sort());
  is(Object.entries({ ...language.TEXTS, ...language.MEANINGS }).filter(([, text]) => text === "" || text.trim() !== text || /[\u0000-\u001f]/.test(text)), []);
  is(Object.values(language.MEANINGS).filter((text) => !/^[A-Z].*\.$/.test(text) || text.length > 90), []);
  is([language.TEXTS, TEXTS].map(({ weekdays }) => weekdays.split(" ").length), [7, 7]);
}
is([["de-AT", "en"], ["fr", "de"], ["en-GB", "de"], ["fr"], [], ["toString"], ["DE"]].map(languageOf), ["de", "de", "en", "en", "en", "en", "de"]);
is(LANGUAGE, "en");

// ---- what a patron asks for
is(holdBody("100", "1", ""), '{"branch":1,"title":100}');
is(holdBody("100", "1", "2026-03-05"), '{"branch":1,"from":"2026-03-05","title":100}');

// ---- a request goes out under one key until an answer comes, and a second one waits
const kept = new Kept();
const door = new Door("desk", kept);
const request = { method: "POST", path: "/desk", keyField: "Desk-Key", keyValue: "deskkey00001", requestKey: newKey(), body: '["renew","1"]' };
let unknown = 0;
const notKnown = () => { unknown += 1; };
let sent = network([[0, null], [0, 502, "<html>"], [0, 200, null], [5, 200, '{"reply":"loan 1 due 2026-03-09"}']]);
const first = door.ask(request, notKnown, [1]);
is(await door.ask({ ...request, requestKey: newKey() }, () => {}, [1]), null);
is(door.left(), request);
is((await first).reply, { kind: "lent", loan: 1, due: "2026-03-09" });
is(unknown, 3);
is(sent, Array(4).fill(["/desk", request.requestKey, "deskkey00001", '["renew","1"]']));
is([door.left(), door.isBusy], [null, false]);

// ---- an answer that came and isn't understood ends the request, with its status, and so does one to too many requests
for (const [status, body] of [[403, "<html>403 Forbidden</html>"], [200, '{"reply":"what"}'], [429, "<html>"], [500, "<html>"]]) {
  sent = network([[0, status, body]]);
  unknown = 0;
  is(await door.ask(request, notKnown, [1]), status === 429 ? { status } : { strange: status });
  is([unknown, sent.length, door.left()], [0, 1, null]);
}

// ---- who leaves takes along what is on its way, whose answer nobody is shown
for (const answers of [[[60_000, 200, "{}"]], [[0, null]]]) {
  network(answers);
  const going = door.ask(request, notKnown, [60_000]);
  await new Promise((done) => setTimeout(done, 5));
  is([door.leave(), door.isBusy, kept.all.size], [true, false, 0]);
  network([[0, 200, '{"reply":"ok"}']]);
  const next = door.ask({ ...request, requestKey: newKey() }, notKnown, [1]);
  is(await going, null);
  is((await next).reply, { kind: "done" });
}
is(door.leave(), false);
is(/^[a-z0-9]{24}$/.test(newKey()) && newKey() !== newKey(), true);

// ---- the words of the field, as clerks and patrons know them
is([20, 36, 37, 38, 53, 81].map((number) => MEANINGS[number]), [
  "This number is already in use with different details.", "Another patron is waiting for this title.", "The patron has reached the loan limit.", "The patron owes more than the limit allows.",
  "This hold is already on the shelf, or has ended.", "The card number or key is wrong."]);
is(["moreThanOwed", "unknown", "lentTo", "pulls", "transits", "debts", "tillDay", "lastTwenty", "putAway", "modes", "openDesk", "closeDesk", "fromDay", "confirmAmount", "yesPaid", "dont"].map((name) => TEXTS[name]), [
  "That is more than is owed ({owed}).", "No connection. We keep trying; it will be done only once.", "{text} lent to {name}, due {due}.", "Pull list", "In transit to us", "Patrons who owe", "Till report for", "Recent", "Clear slips",
  "Task", "Sign in", "Sign out", "Not needed before (optional)", "Take {paid} from {whom}?", "Take {paid}", "Don't"]);
console.log(`pages: ${tried} tried`);
