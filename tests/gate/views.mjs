// What the pages show beside the work of a desk: searches, buttons, forms, branches, opening, the calendar of a year and tabs; run by tests/gate/pages.py.
import { deepStrictEqual as same } from "node:assert";
import { Branches } from "../../pages/branches.js";
import { once } from "../../pages/clicks.js";
import { COMMANDS, QUESTIONS } from "../../pages/commands.js";
import { formOf, isScanned, labelOf as labelOfPart, partOfRefusal, problemOfField, wordsOfForm } from "../../pages/fields.js";
import { Idle } from "../../pages/idle.js";
import { problemOfWords } from "../../pages/misread.js";
import { numberBy } from "../../pages/labels.js";
import { lookFirst } from "../../pages/opening.js";
import { readReply } from "../../pages/replies.js";
import { alertsOf } from "../../pages/alerts.js";
import { askForNames } from "../../pages/row_names.js";
import { actionsOfHold, actionsOfLoan, actionsOfPatron, actionsOfRow } from "../../pages/row_actions.js";
import { cut } from "../../pages/scans.js";
import { Search, searchedBy } from "../../pages/search.js";
import { placeAfter } from "../../pages/tabs.js";
import { BRANCHES, IDLE_MINUTES, branchName } from "../../pages/texts.js";
import { monthsFrom, weeksOf } from "../../pages/year.js";
import { Kept } from "../lib/network.mjs";

let tried = 0;
function is(one, other) {
  same(one, other);
  tried += 1;
}

// ---- of a double click the first alone counts
let clicked = 0, now = 0;
const click = once(() => { clicked += 1; }, () => now);
for (const [at, detail] of [[0, 1], [120, 2], [300, 1], [590, 0], [700, 1], [1250, 0], [1310, 2], [2000, 0]]) {
  now = at;
  click({ detail });
}
is(clicked, 3);
// ---- letters in the place of a patron or a title are searched for, and scans, numbers and a single letter aren't
is(["bell an", "Åsa", "שרה", "4x1y", "P4", "Pat", "4", "", "3x2", "Bo", "C20"].map((text) => searchedBy("patron", cut(text, { patron: "", copy: "C" }))),
  [...Array(4).fill("find-patrons"), null, "find-patrons", null, null, null, "find-patrons", null]);
is(["salt", "100", "carr", "Pat"].map((text) => searchedBy("title", cut(text))), ["find-titles", null, "find-titles", "find-titles"]);
is(["copy", "amount"].map((wanted) => searchedBy(wanted, cut("salt"))), [null, null]);
// what is typed on is searched for once it rests; the last answer alone is shown, and further parts where they are asked for
const searches = [], finds = [];
const search = new Search((words, signal) => new Promise((done) => { searches.push({ words, signal, done: (text) => done({ reply: { kind: "shown" }, text }) }); }), (found, begin) => finds.push([found.rows.map(({ patron }) => patron), found.after, begin]), 20);
const pause = (milliseconds) => new Promise((done) => setTimeout(done, milliseconds));
for (const text of ["be", "bel", "bell"]) search.type("find-patrons", text);
is(searches.length, 0);
await pause(40);
is(searches.map(({ words }) => words.join(" ")), ["find-patrons 0 bell"]);
search.type("find-patrons", "bella");
await pause(40);
searches[1].done("patron 9 owed 0 name Bella\nafter 9");
await pause(1);
searches[0].done("patron 1 owed 0 name Ann Bell\nend");
await pause(1);
is([finds, searches[0].signal.aborted], [[[[9], 9, 0]], true]);
is(new Search().pause, 250);
search.more();
is(searches[2].words, ["find-patrons", 9, "bella"]);
searches[2].done("patron 12 owed 0 name Bella\nend");
await pause(1);
is(finds[1], [[9, 12], null, 1]);
// once nothing is searched for nothing is shown, nor asked any more
search.now("find-patrons", "ann");
is(searches[3].words, ["find-patrons", 0, "ann"]);
search.type(null, "");
searches[3].done("patron 1 owed 0 name Ann Bell\nend");
await pause(30);
is([finds.slice(2), searches.length], [[[[], null, 0]], 4]);

// ---- each row has its actions: their words are commands, their forms have the parts that they fill in, and their questions can be asked
const rowsOf = {
  pulls: [{ hold: 1, copy: 11, title: 100, text: "Rivers" }], transits: [{ copy: 11, hold: null, title: 100, text: "Rivers" }], debts: [{ patron: 2, owed: 130, name: "Bo Carr" }],
  overdue: [{ loan: 1, patron: 2, copy: 11, due: "2026-03-09", late: 7, text: "Rivers" }], shelf: [{ hold: 7, copy: 11, patron: 2, until: "2026-03-07", text: "Rivers" }, { hold: 8, copy: 12, patron: 2, until: "2026-03-09", text: "Rivers" }],
  "find-patrons": [{ patron: 2, owed: 130, name: "Bo Carr" }], "find-titles": [{ title: 100, text: "Rivers" }], queue: [{ hold: 7, patron: 2, branch: 1, from: null }], "missing-copies": [{ copy: 11, home: 1, title: 100, text: "Rivers" }],
  copy: ["shelf", "loan", "missing", "withdrawn"].map((to) => ({ copy: 11, home: 1, kind: 1, price: 2500, title: 100, text: "Rivers", place: { to }, barcode: to === "loan" ? "a1" : null })), copies: [{ copy: 11, place: { to: "shelf" } }],
  branches: [{ branch: 1, pickup: 5, week: "ooooooc", name: "Main" }], "closed-days": [{ day: "2026-12-24" }], kinds: [{ kind: 1, loans: 5, holds: 5, debt: 500 }],
  rules: [{ kind: 1, copyKind: 2, period: 6, renewals: 1, rate: 20, cap: 100, grace: 3 }], account: [{ line: 1, text: null }], loans: [{ loan: 1, patron: 2 }], till: [{ sort: "fines", amount: 0 }], "till-at": [{ sort: "charges", amount: 0 }],
  borrower: [null, "20000000000001"].map((barcode) => ({ patron: 2, owed: 130, name: "Bo Carr", patronKind: 1, barcode })),
};
const toldOf = ({ text, sends, fills, values, shows, about, serves, mode }) => `${text}: ${sends?.join(" ") ?? (fills && [fills, ...Object.entries(values).map((of) => of.join("="))].join(" ")) ?? (shows && `${shows} ${about}`) ?? `${mode} ${serves}`}`;
const actionsOf = (question) => rowsOf[question].map((row) => actionsOfRow(question, row, { day: "2026-03-08", about: "1", head: { text: "Rivers" } }));
is(Object.fromEntries(Object.keys(rowsOf).map((question) => [question, actionsOf(question).map((them) => them.map(toldOf).join("; "))])), {
  pulls: ["Missing: missing 11"], transits: ["Missing: missing 11"], debts: ["Pay: pay 2; Waive: waive patron=2 amount=1.30; Account: account 2"], overdue: ["Serve: check-out 2; Missing: missing 11"],
  shelf: ["Serve: check-out 2; Unshelve: unshelve 7", "Serve: check-out 2; Cancel: unshelve-cancelled 8"], "find-patrons": ["Serve: check-out 2; Account: account 2; Charge: charge patron=2; Amend: amend-patron patron=2 name=Bo Carr; New card key: card-key patron=2; New barcode: patron-barcode patron=2; Details: borrower 2"],
  borrower: ["", "; Drop the barcode: drop-barcode 20000000000001"].map((dropped) => `Serve: check-out 2; Account: account 2; Charge: charge patron=2; Amend: amend-patron patron=2 name=Bo Carr; New card key: card-key patron=2; New barcode: patron-barcode patron=2${dropped}`),
  "find-titles": ["Copies: copies 100; Who waits: queue 100; Amend: amend-title title=100 text=Rivers; Add a copy: acquire title=100 text=Rivers"], queue: ["Serve: check-out 2; Cancel: cancel-hold 7"], "missing-copies": ["Withdraw: withdraw 11"],
  copy: [["Missing: missing 11", "Withdraw: withdraw 11"], ["Missing: missing 11"], ["Withdraw: withdraw 11"], []].map((them, at) => [
    ...them, "Amend: amend-copy copy=11 kind=1 price=25.00", "New home: rehome copy=11 branch=1", "New barcode: copy-barcode copy=11", ...(at === 1 ? ["Drop the barcode: drop-barcode a1"] : []), "Loans: loans 11"].join("; ")),
  copies: ["Missing: missing 11; Withdraw: withdraw 11; Details: copy 11"], branches: ["Amend: amend-branch branch=1 pickup=5 name=Main; Week: week branch=1 mask=ooooooc; Closed days to come: closed-days 1"],
  "closed-days": ["Open on this day: open-day 1 2026-12-24"], kinds: ["Amend: kind kind=1 loans=5 holds=5 debt=5.00; Rules: rules 1"],
  rules: ["Amend: rule kind=1 period=6 renewals=1 copy-kind=2 rate=0.20 cap=1.00; Grace days: grace kind=1 copy-kind=2 days=3"], account: [""], loans: ["Serve: check-out 2"], till: [""], "till-at": [""],
});
const everyAction = [...Object.keys(rowsOf).flatMap((question) => actionsOf(question).flat()), ...actionsOfLoan({ loan: 1, renewals: 1 }), ...["waiting", "ready"].flatMap((state) => actionsOfHold({ hold: 7, state, text: "Rivers" }, { name: "Bo Carr" })),
  ...actionsOfPatron({ patron: 2, owed: 130, name: "Bo Carr" })];
is(everyAction.filter(({ sends }) => sends && problemOfWords(sends) !== null), []);
is(everyAction.filter(({ fills, values }) => fills && !Object.keys(values).every((part) => COMMANDS[fills].includes(part))), []);
is(everyAction.filter(({ shows }) => shows && !QUESTIONS.includes(shows)), []);
is([actionsOfLoan({ loan: 1, renewals: 0 }), actionsOfHold({ hold: 7, state: "ready", text: "Rivers" }, { name: "Bo" }).map(toldOf), actionsOfPatron({ patron: 2, owed: 0, name: "Bo" }).map(({ text }) => text)],
  [[], ["Cancel: unshelve-cancelled 7"], ["Account", "Charge", "Amend", "New card key", "New barcode", "Details"]]);

// ---- what is told first of a patron: holds that are ready at this branch, and loans that are late on the library's day
const alerts = (holds, dues, branch, day) => alertsOf({ holds: holds.map(([state, at]) => ({ state, branch: at })), loans: dues.map((due) => ({ due })) }, branch, day);
is([alerts([["ready", 1], ["ready", 2], ["waiting", 1]], ["2026-03-09"], "1", "2026-03-09"), alerts([["ready", 1], ["ready", 1]], ["2026-03-09", "2026-03-08"], 1, "2026-03-10"), alerts([], ["2026-03-09", "2026-03-11"], "1", "2026-03-10"),
  alerts([["ready", 2], ["waiting", 1]], ["2026-03-09"], "1", null)], [["1 hold is ready here."], ["2 holds are ready here.", "2 loans are overdue."], ["1 loan is overdue."], []]);

// ---- the names of a list's patrons are asked for a few at a time, each once, as long as the list is shown
async function namesOf(patrons, answers, most = Infinity) {
  const found = [], askedFor = [];
  let under = 0, together = 0;
  await askForNames(patrons, {
    ask: async ([question, patron]) => {
      askedFor.push(`${question} ${patron}`);
      together = Math.max(together, under += 1);
      await pause(1);
      under -= 1;
      return answers(Number(patron));
    },
    isWanted: () => found.length < most, named: (patron, name) => found.push(`${patron} ${name}`),
  });
  return { found, askedFor, together };
}
const nameOf = (patron) => ({ reply: { kind: "borrower", patron, name: `N${patron}` } });
const nine = [1, 2, 3, 4, 5, 6, 7, 8, 9];
is(await namesOf(nine, (patron) => (patron === 2 ? { refusal: 11 } : patron === 3 ? null : nameOf(patron))), { found: [1, 4, 5, 6, 7, 8, 9].map((patron) => `${patron} N${patron}`), askedFor: nine.map((patron) => `borrower ${patron}`), together: 4 });
for (const answer of [{ refusal: 81 }, { status: 429 }]) is([await namesOf(nine, () => answer)].map(({ found, askedFor }) => [found, askedFor.length]), [[[], 4]]);
is([await namesOf(nine, nameOf, 2)].map(({ found, askedFor }) => [found, askedFor.length < 7]), [[["1 N1", "2 N2"], true]]);

// ---- fields: what they are called, what they must be, and what is sent of them
is(Object.entries(COMMANDS).filter(([name]) => !QUESTIONS.includes(name)).flatMap(([name, parts]) => parts.filter((part) => part !== "loan" && (!labelOfPart(name, part) || !formOf(part)))), []);
is([labelOfPart("kind", "kind"), labelOfPart("acquire", "kind"), formOf("branch"), formOf("debt"), formOf("amount")], ["Kind of patrons", "Kind of copies", "a number from 1 to 99", "an amount such as 2.50, up to 10000.00", "an amount such as 2.50"]);
is([["copy", "0"], ["copy", "9999999"], ["copy", "10000000"], ["copy", "1.5"], ["pickup", "0"], ["pickup", "61"], ["rate", "100.00"], ["rate", "100.01"], ["price", "12"], ["day", "2026-02-29"], ["mask", "ccccccc"], ["mask", "ooooooc"], ["name", "-x"],
  ["name", "Ann O'Hara"], ["name", ""], ["card-key", "short"]].map(([part, text]) => problemOfField(part, text) === null), [false, true, false, false, true, false, true, false, false, false, false, true, false, true, false, false]);
// a charge has limits, a label and a hint of its own
is([labelOfPart("charge", "text"), labelOfPart("acquire", "text"), formOf("amount", "charge"), formOf("amount", "waive"), formOf("barcode")],
  ["What it is for", "Title", "an amount such as 2.50, up to 10000.00", "an amount such as 2.50", "1 to 24 letters and digits"]);
is([["amount", "0.00"], ["amount", "0.01"], ["amount", "10000.00"], ["amount", "10000.01"], ["amount", "250"], ["text", "Photocopies, 10 pages"], ["text", "-x"], ["branch", "1"]].map(([part, text]) => problemOfField(part, text, "charge") === null),
  [false, true, true, false, false, true, false, true]);
is(["0.00", "99999.99"].map((text) => problemOfField("amount", text, "waive")), [null, null]);
is(wordsOfForm("charge", { patron: "2", amount: "2.50", branch: "1", text: "Photocopies, 10 pages" }), ["charge", "2", "250", "1", "Photocopies, 10 pages"]);
is(["01", "a1", "A-1", "", "a".repeat(25)].map((text) => problemOfField("barcode", text) === null), [true, true, false, false, false]);
is([["charge", 21], ["charge", 11], ["charge", 10], ["charge", 60], ["charge", 70], ["copy-barcode", 13], ["copy-barcode", 26], ["patron-barcode", 11], ["patron-barcode", 26], ["drop-barcode", 18]].map((of) => partOfRefusal(...of)),
  ["amount", "patron", "branch", "amount", null, "copy", "barcode", "patron", "barcode", "barcode"]);
is(problemOfField("copy", "x"), "This should be a number from 1 to 9999999.");
is(wordsOfForm("acquire", { copy: "10", title: "100", kind: "1", home: "2", price: "25,00", text: "Salt Roads" }), ["acquire", "10", "100", "1", "2", "2500", "Salt Roads"]);
is([["acquire", 20], ["patron", 20], ["branch", 20], ["acquire", 10], ["week", 10], ["week", 22], ["grace", 16], ["waive", 60], ["patron", 17], ["withdraw", 31], ["close-day", 0]].map((of) => partOfRefusal(...of)),
  ["copy", "patron", "branch", "home", "branch", "mask", "copy-kind", "amount", "kind", null, null]);

// ---- a label that is scanned into a field is first a barcode, then a prefix, and a bare number is of what the field asks for
is([["waive", "patron"], ["missing", "copy"], ["patron", "patron"], ["acquire", "copy"], ["waive", "amount"], [undefined, "copy"]].map((of) => isScanned(...of)), [true, true, false, false, false, false]);
is([formOf("copy", "missing"), formOf("copy", "acquire")], ["a number from 1 to 9999999, or a scanned label", "a number from 1 to 9999999"]);
const labels = { 20000000000002: "patron 2", 30000100000020: "copy 20", 7: "copy 70" };
const numbered = async (kind, text, answer = ([, barcode]) => (labels[barcode] ? { reply: readReply(labels[barcode]), text: labels[barcode] } : { refusal: 18 })) => {
  const found = await numberBy(kind, text, async (words) => answer(words));
  return found && Object.values(found)[0];
};
is(await Promise.all([["patron", "20000000000002"], ["copy", "30000100000020"], ["patron", "P4"], ["patron", "4"], ["copy", "7"], ["copy", "30000100000099"], ["copy", "20000000000002"], ["patron", "C4"], ["patron", "7"], ["copy", "1.5"]]
  .map(([kind, text]) => numbered(kind, text))), ["2", "20", "4", "4", "70", "Nothing has this barcode.", "This is a patron's card, but a copy is expected.", "This is a copy, but a patron's card is expected.",
  "This is a copy, but a patron's card is expected.", "1.5"]);
is([await numbered("copy", "7", () => null), await numbered("copy", "7", () => ({ fault: 92 })), await numbered("copy", "7", () => ({ reply: readReply("ok"), text: "ok" }))],
  [null, "Fault 92: The desk is closed. Send it again later; it will be done only once.", "This page can't read the answer (status 200). It is not known whether the request was carried out."]);

// ---- the machine remembers where it stands and the names of the branches, of which those in the texts go before
const machineOfTown = new Kept();
const ours = new Branches(machineOfTown);
is([ours.here, ours.all, ours.numberOf("1"), ours.numberOf("Main")], ["", [], "1", null]);
ours.here = "2";
ours.learn([{ branch: 1, name: "Main" }, { branch: 2, name: "Harbour" }]);
const forget = () => Object.keys(BRANCHES).forEach((branch) => delete BRANCHES[branch]);
forget();
const again = new Branches(machineOfTown);
is([again.here, again.all, again.numberOf("harbour"), again.numberOf("7"), again.numberOf("Quay"), branchName(2)], ["Harbour", [["1", "Main"], ["2", "Harbour"]], "2", "7", null, "Harbour"]);
again.learn([{ branch: 2, name: "Quay" }]);
is([again.here, branchName(2)], ["Quay", "Quay"]);
forget();
BRANCHES[2] = "Quay 2";
const named = new Branches(machineOfTown);
named.learn([{ branch: 1, name: "Main" }, { branch: 2, name: "Quay" }]);
is(named.all, [["1", "Main"], ["2", "Quay 2"]]);
forget();

// ---- a desk opens by questions of which a clerk who lends alone may ask the first, and by the branches where they may be asked for
const mayAsk = (text) => ({ reply: readReply(text), text });
const todays = mayAsk("today 2026-03-02"), towns = mayAsk("branch 1 pickup 5 week ooooooc name Main\nbranch 20 pickup 3 week coooooc name Harbour\nend");
for (const [day, branches, branch, problem, rows, words] of [
  [todays, towns, "20", null, 2, 2], [todays, towns, "2", "There is no such branch.", 2, 2], [todays, { refusal: 81 }, "2", null, null, 2], [{ refusal: 81 }, towns, "1", "The key is wrong, or may not do this.", null, 1],
  [mayAsk("ok"), towns, "1", "This page can't read the answer (status 200). It is not known whether the request was carried out.", null, 1], [todays, mayAsk("ok"), "1", "This page can't read the answer (status 200). It is not known whether the request was carried out.", null, 2],
  [{ fault: 92 }, towns, "1", "Fault 92: The desk is closed. Send it again later; it will be done only once.", null, 1],
]) {
  const askedOfDesk = [];
  const found = await lookFirst(async (them) => { askedOfDesk.push(them); return them[0] === "today" ? day : branches; }, branch);
  is([found.problem, found.rows?.length ?? null, askedOfDesk], [problem, rows, [["today"], ["branches", "0"]].slice(0, words)]);
}
is([await lookFirst(async () => null, "1"), await lookFirst(async ([name]) => (name === "today" ? todays : null), "1")], [null, null]);

// ---- the calendar of a year: each day once, in its weekday, and what it is
const months = monthsFrom("2027-11-30", "ooooooc", ["2027-12-24", "2028-02-29", "2027-11-29", "2027-12-05"]);
const days = months.flat();
is([months.length, days.length, days[0].day, days.at(-1).day, new Set(days.map(({ day }) => day)).size], [12, 366, "2027-11-01", "2028-10-31", 366]);
is(days.filter(({ state }) => state === "closed").map(({ day }) => day), ["2027-12-05", "2027-12-24", "2028-02-29"]);
is([days.filter(({ state }) => state === "over").length, days.find(({ day }) => day === "2027-12-12").state, days.find(({ day }) => day === "2027-12-01").state], [30, "weekly", "open"]);
is(weeksOf(months[1]).map((week) => week.map((it) => it?.day.slice(8) ?? "").join(" ").trim()), ["01 02 03 04 05", "06 07 08 09 10 11 12", "13 14 15 16 17 18 19", "20 21 22 23 24 25 26", "27 28 29 30 31"]);
is(months.flatMap(weeksOf).every((week) => week.length === 7 && week.every((it, place) => it === null || it.place === place)), true);

// ---- the arrow keys go round among the tabs, and other keys to none
is([["ArrowRight", 0], ["ArrowRight", 4], ["ArrowLeft", 4], ["ArrowLeft", 0], ["Home", 3], ["End", 0], ["Enter", 1], ["4", 1], ["toString", 1]].map(([key, place]) => placeAfter(key, place, 5)), [1, 0, 3, 4, 0, 4, null, null, null]);

// ---- a page is left once nobody did anything for its minutes, by the clock, and also in a tab that was loaded anew meanwhile; with 0 minutes never
const room = new EventTarget(), tabOfRoom = new Kept(), TEN = 600_000;
let clock = 0, timesLeft = 0;
const idleOf = (minutes, storage = tabOfRoom) => new Idle(() => { timesLeft += 1; }, { minutes, storage, page: room, now: () => clock, every: 2 });
const passed = async (milliseconds) => { clock += milliseconds; await pause(30); return timesLeft; };
const doing = (sign) => room.dispatchEvent(new Event(sign));
const idle = idleOf(10), neverIdle = idleOf(0, new Kept());
for (const it of [idle, neverIdle]) it.begin();
is([IDLE_MINUTES, await passed(TEN - 1), await passed(1), await passed(TEN)], [10, 0, 1, 1]);
for (const sign of ["keydown", "pointerdown", "pointermove", "wheel"]) {
  timesLeft = 0;
  idle.renew();
  const before = await passed(TEN - 1);
  doing(sign);
  is([before, await passed(TEN - 1), await passed(1)], [0, 0, 1]);
}
// whoever comes after it comes too late, and what is done then doesn't count in a tab that is loaded anew
doing("keydown");
const idleAnew = idleOf(10);
idleAnew.begin();
is([timesLeft, await passed(0)], [2, 2]);
idleAnew.renew();
clock += TEN;
doing("keydown");
is([timesLeft, tabOfRoom.getItem("circ.seen")], [3, String(clock - TEN)]);
idleAnew.renew();
idleAnew.end();
is(await passed(TEN), 3);
neverIdle.end();
console.log(`views: ${tried} tried`);
