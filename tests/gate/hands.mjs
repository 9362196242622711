// The work of a desk as fast as the fastest hand, over the slowest network: run by tests/gate/pages.py.
import { deepStrictEqual as same } from "node:assert";
import { isAskedFirst } from "../../pages/asked_first.js";
import { askUntilAnswered } from "../../pages/asking.js";
import { COMMANDS, QUESTIONS } from "../../pages/commands.js";
import { today } from "../../pages/days.js";
import { plain } from "../../pages/isolating.js";
import { LeftBehind, openTabs } from "../../pages/left_behind.js";
import { LibraryDay } from "../../pages/library_day.js";
import { Papers } from "../../pages/papers.js";
import { receiptEnd, receiptHead, receiptRow } from "../../pages/receipt.js";
import { labelOf } from "../../pages/saying.js";
import { beginsScan, cut, endsScan, itemOf, needsConfirming, ownNumber, scansIn, wanted } from "../../pages/scans.js";
import { slipLines } from "../../pages/slips.js";
import { SignedIn } from "../../pages/signed_in.js";
import { TEXTS } from "../../pages/texts.js";
import { Work } from "../../pages/work.js";
import { Kept, network } from "../lib/network.mjs";

let tried = 0;
function is(one, other) {
  same(one, other);
  tried += 1;
}

const reply = (text, milliseconds = 5) => [milliseconds, 200, JSON.stringify({ reply: text })];
const refusal = (number, milliseconds = 5) => [milliseconds, number === 81 ? 403 : 409, JSON.stringify({ refusal: number })];
const fault = (number) => [5, 503, JSON.stringify({ fault: number })];
const page = (patron, name, ...lines) => [`patron ${patron} owed 0 name ${name}`, ...lines].join("\n");

// The answers to acts in turn, of which the last one stays; a question is answered by the words that it begins with.
function turns(acts, asked = {}) {
  const left = [...acts];
  const questions = { ...asked, ...(asked["copy 20"] ? {} : { "copy": "copy 1 home 1 kind 1 price 100 title 1 Any\nshelf 1" }) };
  return (body) => {
    const words = JSON.parse(body).join(" ");
    const question = Object.keys(questions).find((it) => words === it || words.startsWith(`${it} `));
    if (question) return typeof questions[question] === "string" ? reply(questions[question]) : questions[question];
    return left.length > 1 ? left.shift() : left[0];
  };
}

// A desk of branch 1 in a tab, and what its screen was told.
function desk(storage = new Kept(), day = { now: dayOf, look: async () => {}, begun() {} }, kept = () => {}, lendsAlone = false) {
  const leaving = new AbortController();
  const told = [], noted = [], receipts = [], slips = [], special = [], ended = [], sought = [];
  let unknown = 0, waiting = [], wanted = null, shown = null;
  const ask = (words, requestKey, text) => askUntilAnswered(
    { method: "POST", path: "/desk", keyField: "Desk-Key", keyValue: "deskkey00001", requestKey, body: JSON.stringify(words) },
    () => { unknown += 1; told.push([plain(text), true]); }, { signal: leaving.signal, pauses: [1] });
  const screen = {
    told: (text, isWrong = false, isSpecial = false) => {
      told.push([plain(text), isWrong]);
      if (isSpecial) special.push(plain(text));
    },
    toldMore: (text) => told.push([plain(text), true]),
    noted: (what, text) => noted.push(plain(`${what}: ${text}`)),
    waiting: (queue) => { waiting = queue.waiting.map(labelOf).map(plain); },
    wanted: (patron, name) => { wanted = name === null ? patron : `${name}, ${patron}`; },
    sought: (text) => work.expected === null && sought.push(text) > 0,
    slip: (slip) => slips.push(slipLines(slip).map(plain)),
    visit: (visit) => { shown = visit; if (visit) receipts.push([receiptHead(visit.receipt), ...visit.receipt.rows].map(plain)); },
    nobody: () => { noted.length = 0; },
    ended: (words, refusal) => ended.push([words.join(" "), refusal]),
  };
  const work = new Work({ branch: "1", ask, screen, storage, day, lendsAlone, kept });
  return { work, told, noted, receipts, slips, special, ended, sought, storage, leaving, unknown: () => unknown, waiting: () => waiting, wanted: () => wanted, shown: () => shown };
}

async function until(holds) {
  for (let at = 0; at < 2000; at += 1) {
    if (holds()) return;
    await new Promise((done) => setTimeout(done, 1));
  }
  throw new Error(`never: ${holds}`);
}

const isQuiet = ({ work: { queue } }) => queue.current === null && (queue.isStopped || queue.waiting.length === 0);
const bodies = (sent) => sent.map(([, , , body]) => JSON.parse(body).join(" "));
const acts = (sent) => bodies(sent).filter((words) => !/^(page|copy|shelf|loans|borrower|find-barcode) /.test(words));
const keysOf = (sent) => sent.filter(([, , , body]) => !/^\["(page|copy|shelf|loans|borrower|find-barcode)"/.test(body)).map(([, key]) => key);
const dayOf = today();

// ---- a card and two copies, before the first answer comes: three requests, in order, none glued to another
const lent = page(4, "Di Eck", "loan 1 due 2026-03-09 renewals 1 title 300 Maps, Old and New", "loan 2 due 2026-03-16 renewals 1 title 400 Winter Bees");
let sent = network(turns([reply("loan 1 due 2026-03-09", 40), reply("loan 2 due 2026-03-16", 40)], { "page 4": reply(lent, 40) }));
let it = desk();
for (const scan of ["4", "31", "32"]) it.work.scan("check-out", scan);
is(it.waiting(), ["copy 31, patron 4", "copy 32, patron 4"]);
is(it.wanted(), 4);
await until(() => isQuiet(it));
is(bodies(sent), ["page 4", "check-out 4 31 1", "page 4", "check-out 4 32 1", "page 4"]);
is(new Set(sent.map(([, key]) => key)).size, 5);
is([it.unknown(), it.waiting(), it.work.queue.isStopped], [0, [], false]);
// whose turn it is is told by the number until the page has come, and by the name then; nobody's after Next patron
is(it.wanted(), "Di Eck, 4");
it.work.nextPatron();
is(it.wanted(), null);
is(it.receipts.at(-1), [`Di Eck, ${dayOf}, branch 1`, "Maps, Old and New, due 2026-03-09", "Winter Bees, due 2026-03-16"]);

// ---- fifty scans at once, over a network that loses answers, cuts them off and tells 502: each is done once, in its order
let lost = 0;
const answered = turns([reply("fine 0 shelf 1", 0)]);
sent = network((body, at) => {
  if (at % 3 !== 2) { lost += 1; return [[0, null], [0, 502, "<html>"], [0, 200, null]][at % 2 + (at % 5 === 0 ? 1 : 0)]; }
  return answered(body);
});
it = desk();
for (let copy = 1; copy <= 50; copy += 1) it.work.scan("check-in", String(copy));
is(it.waiting().length, 49);
await until(() => isQuiet(it));
const keys = [...new Map(sent.map(([, key, , body]) => [key, body])).values()].filter((body) => body.includes("check-in"));
is(keys.map((body) => JSON.parse(body)[1]), Array.from({ length: 50 }, (_, at) => String(at + 1)));
is([lost, it.unknown(), sent.length], [200, 200, 300]);
is(it.noted.length, 50);

// ---- 10, 1, 1 scanned in are three copies, and never an eleventh
sent = network(turns([reply("fine 0 shelf 1", 10)]));
it = desk();
for (const scan of ["10", "1", "1"]) it.work.scan("check-in", scan);
await until(() => isQuiet(it));
is(acts(sent), ["check-in 10 1", "check-in 1 1", "check-in 1 1"]);
is(new Set(keysOf(sent)).size, 3);

// ---- a refusal stops the queue, and says so; what waits is sent on, or thrown away
for (const [answer, text] of [[refusal(36), "Another patron is waiting for this title. Any: On the shelf, branch 1."], [[5, 400, '{"status":400}'], "The desk did not take this (status 400)."]]) {
  sent = network(turns([answer, ...[1, 2, 3].map((loan) => reply(`loan ${loan} due 2026-03-09`))], { "page 4": page(4, "Di Eck") }));
  it = desk();
  for (const scan of ["4", "31", "32", "33"]) it.work.scan("check-out", scan);
  await until(() => isQuiet(it));
  is([it.work.queue.isStopped, it.work.queue.held, it.waiting()], [true, null, ["copy 32, patron 4", "copy 33, patron 4"]]);
  is(it.told.at(-1), [`copy 31, patron 4: ${text}`, true]);
  it.work.scan("check-out", "34");
  is([it.waiting(), acts(sent).length], [["copy 32, patron 4", "copy 33, patron 4", "copy 34, patron 4"], 1]);
  it.work.queue.sendOn();
  await until(() => isQuiet(it));
  is(acts(sent).slice(1), ["check-out 4 32 1", "check-out 4 33 1", "check-out 4 34 1"]);
}
sent = network(turns([refusal(13), reply("fine 0 shelf 1")]));
it = desk();
for (const scan of ["1", "2", "3"]) it.work.scan("check-in", scan);
await until(() => isQuiet(it));
it.work.queue.throwAway();
is([it.waiting(), it.work.queue.isStopped], [[], false]);
it.work.scan("check-in", "4");
await until(() => isQuiet(it));
is(acts(sent), ["check-in 1 1", "check-in 4 1"]);

// ---- a fault, or an answer that isn't understood, stops it likewise: the same is sent again under its key, before what waits
for (const [answer, text] of [[fault(91), /^copy 1: Fault 91: /], [[5, 403, "<html>"], /status 403/], [[5, 200, '{"reply":"what"}'], /status 200/]]) {
  sent = network(turns([answer, reply("fine 0 shelf 1")]));
  it = desk();
  for (const scan of ["1", "2"]) it.work.scan("check-in", scan);
  await until(() => isQuiet(it));
  is([it.work.queue.isStopped, sent.length, it.unknown(), text.test(it.told.at(-1)[0]), it.told.at(-1)[1]], [true, 1, 0, true, true]);
  it.work.queue.sendAgain();
  await until(() => isQuiet(it));
  is(acts(sent), ["check-in 1 1", "check-in 1 1", "check-in 2 1"]);
  const [first, second, third] = keysOf(sent);
  is([first === second, second === third], [true, false]);
}

// what is passed over is neither sent again later nor unknown
sent = network(turns([fault(91), reply("fine 0 shelf 1")]));
it = desk();
it.work.scan("check-in", "1");
await until(() => isQuiet(it));
it.work.queue.sendOn();
is([it.work.queue.isStopped, it.work.queue.held, it.work.end()], [false, null, { unknown: [], unsent: [] }]);

// ---- a refused patron doesn't become the current one, nor does what was scanned for that card go to anybody else
sent = network(() => refusal(11));
it = desk();
for (const scan of ["44", "31"]) it.work.scan("check-out", scan);
await until(() => isQuiet(it));
is([it.work.service.visit, it.work.expected, it.wanted()], [null, null, null]);
is(it.waiting(), ["copy 31, patron 44"]);
it.work.queue.sendOn();
await until(() => isQuiet(it));
is(bodies(sent), ["page 44", "page 44"]);
it.work.queue.throwAway();
sent = network(() => reply(page(4, "Di Eck")));
it.work.scan("check-out", "4");
await until(() => isQuiet(it));
is([it.work.service.visit.page.name, it.work.expected], ["Di Eck", 4]);

// ---- what isn't a number is told in its turn, and stops what follows it
sent = network(turns([reply("fine 0 shelf 1")]));
it = desk();
for (const scan of ["1", "3x2", "3"]) it.work.scan("check-in", scan);
await until(() => isQuiet(it));
is([acts(sent), it.waiting(), it.told.at(-1)[1]], [["check-in 1 1"], ["copy 3"], true]);
it.work.queue.sendOn();
await until(() => isQuiet(it));
is(acts(sent), ["check-in 1 1", "check-in 3 1"]);

// ---- the next patron begins where the clerk says so, also while the one before is still being served
sent = network(turns([reply("loan 1 due 2026-03-09", 10)], { "page 4": page(4, "Di Eck"), "page 5": page(5, "Ed Fox") }));
it = desk();
for (const scan of ["4", "31"]) it.work.scan("check-out", scan);
it.work.nextPatron();
for (const scan of ["5", "32"]) it.work.scan("check-out", scan);
await until(() => isQuiet(it));
is(bodies(sent), ["page 4", "check-out 4 31 1", "page 4", "page 5", "check-out 5 32 1", "page 5"]);

// ---- a tab that is loaded anew goes on: what was on its way first, under its key, and then what waits
sent = network([[0, null], [60_000]]);
it = desk();
for (const scan of ["1", "2", "3"]) it.work.scan("check-in", scan);
await until(() => sent.length === 2);
const [, keyBefore] = sent[0];
const anew = desk(it.storage);
sent = network(turns([reply("fine 0 shelf 1")]));
anew.work.queue.run();
await until(() => isQuiet(anew));
is(acts(sent), ["check-in 1 1", "check-in 2 1", "check-in 3 1"]);
is(sent[0][1], keyBefore);
// and where it stood still it stands still, and shows what waits
sent = network(() => refusal(13));
it = desk();
for (const scan of ["1", "2"]) it.work.scan("check-in", scan);
await until(() => isQuiet(it));
const still = desk(it.storage);
still.work.queue.run();
is([still.work.queue.isStopped, still.waiting(), acts(sent)], [true, ["copy 2"], ["check-in 1 1"]]);

// ---- a refusal of typed words stops what waits, and nothing else; a card key is shown and kept in no list
sent = network([refusal(17), reply("ok")]);
it = desk();
it.work.words(["patron", "7", "1", "cardkey00007", "Gil Hay"]);
await until(() => isQuiet(it));
is([it.work.queue.isStopped, it.noted], [false, ["patron 7 1 … Gil Hay: There is no such kind of patron."]]);
sent = network(turns([refusal(14), reply("fine 0 shelf 1")]));
it.work.words(["renew", "9"]);
it.work.scan("check-in", "1");
await until(() => isQuiet(it));
is([acts(sent), it.work.queue.isStopped, it.waiting()], [["renew 9"], true, ["copy 1"]]);
it.work.queue.throwAway();
sent = network([[60_000]]);
it.work.scan("check-in", "1");
it.work.words(["patron", "7", "1", "cardkey00007", "Gil Hay"]);
await until(() => sent.length === 1);
is([it.waiting(), JSON.stringify([...it.storage.all]).includes("cardkey00007")], [["patron 7 1 … Gil Hay"], false]);
const later = desk(it.storage);
sent = network(turns([reply("fine 0 shelf 1")]));
later.work.queue.run();
await until(() => isQuiet(later));
is([acts(sent), later.told.at(-1)], [["check-in 1 1"], [TEXTS.cardKeyNotKept, true]]);

// ---- scanners: ends of lines and tabs part scans, and prefixes are cut off
is(["10", "10\r\n", "10\r\n20\t30\n", "\r\n", " 10 "].map(scansIn), [["10"], ["10"], ["10", "20", "30"], [], ["10"]]);
is([[{ key: "Tab" }, "10"], [{ key: "Tab" }, ""], [{ key: "Tab", shiftKey: true }, "10"], [{ key: "j", ctrlKey: true }, ""], [{ key: "J", ctrlKey: true }, "1"], [{ key: "m", ctrlKey: true }, "1"],
  [{ key: "j" }, "1"], [{ key: "1" }, "1"]].map(([key, text]) => Boolean(endsScan(key, text))), [true, false, false, true, true, true, false, false]);
is([{ key: "1" }, { key: "P" }, { key: " " }, { key: "Enter" }, { key: "2", altKey: true }, { key: "c", ctrlKey: true }, { key: "Unidentified" }].map(beginsScan), [true, true, false, false, false, false, true]);
is(["P4", "p4", "C31", "31", "X31"].map((text) => cut(text)), [{ of: "patron", number: "4" }, { of: "patron", number: "4" }, { of: "copy", number: "31" }, { of: null, number: "31" }, { of: null, number: "X31" }]);
is(["Carr", "Pat", "C", "P", "carr bo"].map((text) => cut(text)), ["Carr", "Pat", "C", "P", "carr bo"].map((text) => ({ of: null, number: text })));
is(["LIB4", "L31", "P4"].map((text) => cut(text, { patron: "LIB", copy: "L" }).of), ["patron", "copy", null]);
is(cut("P4", { patron: "", copy: "" }), { of: null, number: "P4" });
is([itemOf("check-out", null, "P4"), itemOf("check-out", 4, "C31"), itemOf("check-in", null, "31")].map(({ kind, number, patron }) => [kind, number, patron]),
  [["patron", 4, null], ["copy", 31, 4], ["copy", 31, null]]);
is([["check-in", null, "P5"], ["check-out", null, "C31"], ["pay", 4, "C31"], ["place-hold", 4, "C31"]].map((asked) => itemOf(...asked).problem), [
  "This is a patron's card, but a copy is expected.", "This is a copy, but a patron's card is expected.", "This is a copy, but an amount is expected.", "This is a copy, but a title number is expected."]);
// a patron types the number of the own card with its prefix or without it; a barcode, which the desk alone can read, is told as one
is(["4", "P4", "p9999999"].map((text) => ownNumber(text)), [{ number: "4" }, { number: "4" }, { number: "9999999" }]);
is(["C4", "20000000000004", "P04", ""].map((text) => ownNumber(text).problem), ["This is a copy, but a patron's card is expected.",
  ...Array(3).fill("This should be the number of your card, with its letter or without it; a barcode is read at the desk alone.")]);
// a card is its patron's wherever somebody is served
is(["check-out", "renew", "pay", "place-hold"].map((mode) => itemOf(mode, 4, "P5")).map(({ kind, number }) => [kind, number]), Array(4).fill(["patron", 5]));
is([["check-out", 4, "C"], ["check-out", 4, "C031"], ["pay", 4, "31"]].map((asked) => itemOf(...asked).kind), ["wrong", "wrong", "wrong"]);
// a book that is scanned first opens no patron, and the card of another patron takes what is scanned after it, and lends nothing itself
sent = network(turns([reply("loan 1 due 2026-03-09")], { "page 4": page(4, "Di Eck"), "page 20": page(20, "Bo Carr") }));
it = desk();
for (const scan of ["C20", "P4", "C30", "P20", "C31"]) it.work.scan("check-out", scan);
for (const [words, waits] of [[[], 4], [["page 4", "check-out 4 30 1", "page 4", "page 20", "check-out 20 31 1", "page 20"], 0]]) {
  await until(() => isQuiet(it));
  is([bodies(sent), it.waiting().length], [words, waits]);
  it.work.sendOn();
}

// ---- a scan is first a barcode, then a prefix, and a bare number what the line asks for, however long the answers take and whichever are lost or cut off
const things = { 20000000000004: "patron 4", 20000000000005: "patron 5", 30000100000031: "copy 31", C5: "patron 5", P4: "copy 32", 7: "copy 31", 8: "patron 5" };
const labelled = (milliseconds = 0) => (barcode) => (things[barcode] ? reply(things[barcode], milliseconds) : refusal(18, milliseconds));
const lending = () => turns([reply("loan 1 due 2026-03-09", 3)], { "page 4": page(4, "Di Eck"), "page 5": page(5, "Ed Fox") });
for (const [mode, scans, words, barcodes = scans] of [
  ["check-out", ["20000000000004", "30000100000031"], ["page 4", "check-out 4 31 1"]],
  ["check-out", ["C5", "P4"], ["page 5", "check-out 5 32 1"]],
  ["check-out", ["8", "7"], ["page 5", "check-out 5 31 1"]],
  ["check-out", ["4", "C20", "21"], ["page 4", "check-out 4 20 1", "check-out 4 21 1"]],
  ["check-in", ["30000100000031", "P4", "C20", "21"], ["check-in 31 1", "check-in 32 1", "check-in 20 1", "check-in 21 1"]],
  // a card at the panel of a patron is the next one's, in each mode
  ["check-out", ["20000000000004", "21", "20000000000005", "30000100000031", "22"], ["page 4", "check-out 4 21 1", "page 5", "check-out 5 31 1", "check-out 5 22 1"]],
  ["pay", ["20000000000004", "2.50", "20000000000005", "0.20"], ["page 4", "pay-at 4 250 1", "page 5", "pay-at 5 20 1"], ["20000000000004", "20000000000005"]],
  ["place-hold", ["4", "200", "C5", "300"], ["page 4", "place-hold 4 200 1", "page 5", "place-hold 5 300 1"]],
]) {
  for (const milliseconds of [0, 20]) {
    sent = network(lending(), labelled(milliseconds));
    it = desk();
    for (const scan of scans) it.work.scan(mode, scan);
    await until(() => isQuiet(it));
    is([bodies(sent).filter((done, at, all) => !done.startsWith("page ") || !all.slice(0, at).includes(done)).filter((done) => !done.startsWith("copy ")), sent.barcodes, it.work.queue.isStopped], [words, barcodes, false]);
  }
}
// an answer that is lost, cut off or none of the desk's is asked for again, before anything that was scanned later is sent
let lostOnes = 0;
sent = network(lending(), (barcode, at) => {
  if (at % 4 === 3) return labelled()(barcode);
  lostOnes += 1;
  return [[0, null], [0, 502, "<html>"], [0, 200, null]][at % 4];
});
it = desk();
for (const scan of ["20000000000004", "21", "20000000000005", "30000100000031"]) it.work.scan("check-out", scan);
await until(() => isQuiet(it));
is([acts(sent), lostOnes, it.unknown(), sent.barcodes.length, it.waiting()], [["check-out 4 21 1", "check-out 5 31 1"], 12, 12, 16, []]);
// what is no card isn't taken for one, nor a card for a copy: it stops, and what was scanned for it goes to nobody
for (const [mode, scans, text, done] of [
  ["check-out", ["30000100000031", "21"], "30000100000031: This is a copy, but a patron's card is expected.", []],
  ["check-out", ["20000000000009", "21"], "20000000000009: Nothing has this barcode.", []],
  ["pay", ["20000000000004", "30000100000031", "0.20"], "30000100000031, patron 4: This is a copy, but an amount is expected.", ["pay-at 4 20 1"]],
  ["check-in", ["20000000000004", "21"], "20000000000004: This is a patron's card, but a copy is expected.", ["check-in 21 1"]],
]) {
  sent = network(lending(), labelled());
  it = desk();
  for (const scan of scans) it.work.scan(mode, scan);
  await until(() => isQuiet(it));
  is([it.told.at(-1)[0], it.work.queue.isStopped, it.waiting().length, acts(sent)], [text, true, 1, []]);
  it.work.sendOn();
  await until(() => isQuiet(it));
  is([acts(sent), it.work.queue.isStopped], [done, done.length === 0]);
}
// where it isn't known whose it is nothing that was scanned later is sent; it is asked again under the same scan
sent = network(lending(), (barcode, at) => (at === 0 ? fault(90) : labelled()(barcode)));
it = desk();
for (const scan of ["20000000000004", "21"]) it.work.scan("check-out", scan);
await until(() => isQuiet(it));
is([bodies(sent), it.waiting(), desk(it.storage).work.end()], [[], ["copy 21, patron 20000000000004"], { unknown: [], unsent: ["20000000000004", "copy 21, patron 20000000000004"] }]);
it.work.sendAgain("");
await until(() => isQuiet(it));
is([acts(sent), it.work.expected], [["check-out 4 21 1"], 4]);
// and without it what was scanned for that card goes to nobody, and the next card is its patron's
sent = network(lending(), (barcode, at) => (at === 0 ? fault(90) : labelled()(barcode)));
it = desk();
for (const scan of ["20000000000004", "21"]) it.work.scan("check-out", scan);
await until(() => isQuiet(it));
it.work.sendOn();
is(it.work.expected, null);
it.work.scan("check-out", "20000000000005");
await until(() => isQuiet(it));
is([it.told.at(-1), it.work.queue.isStopped], [["copy 21, patron 20000000000004: This is a copy, but a patron's card is expected.", true], true]);
it.work.sendOn();
await until(() => isQuiet(it));
is([bodies(sent), it.work.expected], [["page 5"], 5]);
// a card that is thrown away before it is known whose it is takes nothing either
for (const card of ["20000000000004", "4"]) {
  sent = network(turns([refusal(13), reply("loan 1 due 2026-03-09", 3)], { "page 5": page(5, "Ed Fox"), "copy 9": refusal(13) }), labelled());
  it = desk();
  it.work.scan("check-in", "9");
  it.work.nextPatron();
  for (const scan of [card, "21"]) it.work.scan("check-out", scan);
  await until(() => isQuiet(it));
  it.work.throwAway();
  is([it.work.expected, it.waiting()], [null, []]);
  for (const scan of ["20000000000005", "31"]) it.work.scan("check-out", scan);
  await until(() => isQuiet(it));
  is([bodies(sent).filter((words) => /^(page|check-out)/.test(words)).slice(0, 2), it.work.queue.isStopped], [["page 5", "check-out 5 31 1"], false]);
}
// nothing of whoever was there stays once the card of another one is scanned; the own card again goes on with its receipt
sent = network(lending(), labelled(20));
it = desk();
for (const scan of ["4", "21", "20000000000004"]) it.work.scan("check-out", scan);
await until(() => isQuiet(it));
it.work.scan("check-out", "P4x");
await until(() => isQuiet(it));
it.work.sendOn();
it.work.scan("check-out", "20000000000004");
await until(() => isQuiet(it));
is([it.shown().page.patron, it.receipts.at(-1).length], [4, 2]);
it.work.scan("check-out", "C5");
await until(() => it.shown() === null);
is([it.noted, it.work.expected], [[], 5]);
await until(() => isQuiet(it));
is([it.receipts.at(-1), JSON.stringify([it.shown(), it.noted, ...it.storage.all]).includes("Di Eck")], [[`Ed Fox, ${dayOf}, branch 1`], false]);
// the same patron in the next turn has another receipt, and nothing of the one before is shown in it
sent = network(lending(), labelled(5));
it = desk();
for (const scan of ["4", "21"]) it.work.scan("check-out", scan);
it.work.nextPatron();
const shownBefore = it.receipts.length;
it.work.scan("check-out", "4");
await until(() => isQuiet(it));
is([acts(sent), [...new Set(it.receipts.slice(shownBefore).map((rows) => rows.length))], it.receipts.length > shownBefore], [["check-out 4 21 1"], [1], true]);
// a number that was chosen among what was found is no barcode
sent = network(lending(), labelled());
it = desk();
for (const number of [4, 8]) it.work.pick("place-hold", number);
await until(() => isQuiet(it));
is([acts(sent), sent.barcodes], [["place-hold 4 8 1"], []]);
// letters that are no barcode are searched for, where nothing else was scanned after them
for (const [scans, sought, isStopped] of [[["bell"], ["bell"], false], [["bell", "21"], [], true]]) {
  sent = network(lending(), labelled());
  it = desk();
  for (const scan of scans) it.work.scan("check-out", scan);
  await until(() => isQuiet(it));
  is([it.sought, sent.barcodes[0], it.work.queue.isStopped, it.work.expected, bodies(sent)], [sought, "bell", isStopped, null, []]);
}

// ---- an amount above 50.00 is taken once the clerk says so
sent = network(turns([reply("owed 0")], { "page 4": page(4, "Di Eck") }));
it = desk();
for (const scan of ["4", "50.00", "50.01", "0.20"]) it.work.scan("pay", scan);
await until(() => isQuiet(it));
is([acts(sent), it.told.at(-1), it.waiting()], [["pay-at 4 5000 1"], ["Take 50.01 from Di Eck?", true], ["0.20 paid, patron 4"]]);
it.work.queue.sendAgain();
await until(() => isQuiet(it));
is(acts(sent), ["pay-at 4 5000 1", "pay-at 4 5001 1", "pay-at 4 20 1"]);
it.work.scan("pay", "1234.00");
await until(() => isQuiet(it));
is([it.work.queue.isStopped, needsConfirming(it.work.queue.held)], [true, true]);
is(desk(it.storage).work.end(), { unknown: [], unsent: ["1234.00 paid, patron 4"] });
it.work.queue.sendOn();
it.work.scan("pay", "1234");
await until(() => isQuiet(it));
is([acts(sent).length, it.told.at(-1)], [3, ["1234, patron 4: This should be an amount such as 2.50.", true]]);

// ---- another day than that of this machine is begun by a typed yes alone, and that of this machine by its words
const otherDay = "2190-12-31";
const askedOfDay = `This machine's date is ${dayOf}, and a day can't be undone once begun. To begin ${otherDay}, type yes. If not, go on without it.`;
sent = network(turns([fault(91), reply("ok"), reply("fine 0 shelf 1")]));
it = desk();
it.work.words(["begin-day", otherDay]);
it.work.scan("check-in", "1");
await until(() => isQuiet(it));
is([sent.length, it.work.queue.isStopped, it.waiting(), it.told.at(-1)], [0, true, ["copy 1"], [askedOfDay, true]]);
for (const typed of ["", " ", "y", "no", "yes please", otherDay]) {
  it.told.length = 0;
  it.work.sendAgain(typed);
  await until(() => isQuiet(it));
  is([sent.length, it.work.queue.isStopped, it.told], [0, true, [[askedOfDay, true]]]);
}
is(desk(it.storage).work.end(), { unknown: [], unsent: [`begin-day ${otherDay}`, "copy 1"] });
it.work.sendAgain(" Yes ");
await until(() => isQuiet(it));
is([acts(sent), it.work.queue.isStopped], [[`begin-day ${otherDay}`], true]);
// what met a fault then was confirmed, and is sent again under its key
it.work.sendAgain("");
await until(() => isQuiet(it));
is([acts(sent), keysOf(sent)[0] === keysOf(sent)[1]], [[`begin-day ${otherDay}`, `begin-day ${otherDay}`, "check-in 1 1"], true]);
sent = network(turns([reply("ok")]));
it = desk();
it.work.words(["begin-day", dayOf]);
await until(() => isQuiet(it));
is([acts(sent), it.work.queue.isStopped], [[`begin-day ${dayOf}`], false]);
// and without a yes it is passed over, also in a tab that is loaded anew
it.work.words(["begin-day", otherDay]);
await until(() => isQuiet(it));
const asked = desk(it.storage);
asked.work.queue.run();
asked.work.sendAgain("");
is([asked.work.queue.isStopped, asked.told], [true, [[askedOfDay, true]]]);
asked.work.queue.sendOn();
asked.work.scan("check-in", "1");
await until(() => isQuiet(asked));
is(acts(sent), [`begin-day ${dayOf}`, "check-in 1 1"]);

// ---- each scan tells the title and for whom; a copy that goes to a hold or a branch has a slip
const roads = (place) => `copy 20 home 2 kind 1 price 1200 title 200 Salt Roads\n${place}`;
const comesIn = [
  ["fine 0 ready 1 at 1 until 2026-03-07", "ready 1 at 1 until 2026-03-07 patron 2 Bo Carr", "Salt Roads: Ready for Bo Carr, hold 1, at branch 1 until 2026-03-07. No fine.",
    ["Bo Carr", "Patron 2", "Salt Roads", "Ready at branch 1 until 2026-03-07", "Hold 1", "Copy 20", "Town library"]],
  ["fine 100 transit 2 for 3", "transit 2 for 3 patron 3 Cy Dunn", "Salt Roads: In transit to branch 2, for Cy Dunn, hold 3. Fine: 1.00. Bo Carr owes 1.30 now.", ["To branch 2", "Cy Dunn", "Patron 3", "Salt Roads", "Hold 3", "Copy 20", "Town library"]],
  ["fine 0 transit 2", "transit 2", "Salt Roads: In transit to branch 2. No fine.", ["To branch 2", "Salt Roads", "Copy 20", "Town library"]],
  ["fine 0 shelf 1", "shelf 1", "Salt Roads: To the shelf, branch 1. No fine.", null],
  ["fine 20 shelf 1", "shelf 1", "Salt Roads: To the shelf, branch 1. Fine: 0.20. Bo Carr owes 1.30 now.", null],
  // moved meanwhile by another desk: nobody is named
  ["fine 0 ready 1 at 1 until 2026-03-07", "loan 4 due 2026-03-16 patron 2 Bo Carr", "Salt Roads: Ready for hold 1 at branch 1 until 2026-03-07. No fine.",
    ["Hold 1", "Salt Roads", "Ready at branch 1 until 2026-03-07", "Copy 20", "Town library"]],
];
// the last of a copy's loans, in the second part of their list, tells who owes its fine
const many = Array.from({ length: 100 }, (_, at) => `loan ${at + 1} patron 3 made 2026-03-02 due 2026-03-09 ended 2026-03-03`);
const debtor = { "loans 20 0": [...many, "after 100"].join("\n"), "loans 20 100": "loan 101 patron 2 made 2026-03-10 due 2026-03-17 ended 2026-03-19\nend", "borrower 2": "patron 2 owed 130 name Bo Carr\nkind 1" };
for (const [answer, place, text, slip] of comesIn) {
  sent = network(turns([reply(answer)], { "copy 20": roads(place), ...debtor }));
  it = desk();
  it.work.scan("check-in", "20");
  await until(() => isQuiet(it));
  const isFined = !answer.startsWith("fine 0 ");
  is([bodies(sent), it.told.at(-1), it.slips], [["check-in 20 1", "copy 20", ...(isFined ? ["loans 20 0", "loans 20 100", "borrower 2"] : [])], [text, false], slip ? [slip] : []]);
  // it looks and sounds unlike a plain return
  is(it.special, slip || isFined ? [text] : []);
}
// a hold that leaves the hold shelf gives its copy to the next one, and that has a slip, too
const shelfRow = "      hold    copy  patron until      title\n         7      20       1 2026-03-07 Salt Roads\nend";
for (const [words, answer, place, text, slip] of [
  [["unshelve", "7"], "ready 9 at 1 until 2026-03-12", "ready 9 at 1 until 2026-03-12 patron 3 Cy Dunn", "Salt Roads: Ready for Cy Dunn, hold 9, at branch 1 until 2026-03-12.",
    [["Cy Dunn", "Patron 3", "Salt Roads", "Ready at branch 1 until 2026-03-12", "Hold 9", "Copy 20", "Town library"]]],
  [["unshelve-cancelled", "7"], "transit 2", "transit 2", "Salt Roads: In transit to branch 2.", [["To branch 2", "Salt Roads", "Copy 20", "Town library"]]],
  [["unshelve", "7"], "shelf 1", "shelf 1", "Salt Roads: To the shelf, branch 1.", []],
]) {
  sent = network(turns([reply(answer)], { "shelf 1 6": shelfRow, "copy 20": roads(place) }));
  it = desk();
  it.work.words(words);
  await until(() => isQuiet(it));
  is([bodies(sent), it.told.at(-1), it.slips], [["shelf 1 6", words.join(" "), "copy 20"], [text, false], slip]);
}
// where it isn't on the shelf of this branch no copy is asked for
sent = network(turns([reply("ready 9 at 2 until 2026-03-12")], { "shelf 1 6": "      hold    copy  patron until      title\n         8      30       1 2026-03-07 Any\nend" }));
it = desk();
it.work.words(["unshelve", "7"]);
await until(() => isQuiet(it));
is([bodies(sent), it.told.at(-1), it.slips], [["shelf 1 6", "unshelve 7"], ["Ready for hold 9 at branch 2 until 2026-03-12.", false], []]);
// slips and the newest notes are kept for a tab that is loaded anew, until they are cleared
const kept = new Kept();
const papers = new Papers(kept, 2);
for (const slip of [{ copy: 20 }, { copy: 11 }]) papers.addSlip(slip);
for (const at of [1, 2, 3]) papers.addNote(`check-in ${at} 1`, "Done.", []);
is([new Papers(kept, 2).slips, new Papers(kept, 2).notes], [[{ copy: 20 }, { copy: 11 }], [["check-in 2 1", "Done.", []], ["check-in 3 1", "Done.", []]]]);
papers.clearSlips();
is([new Papers(kept, 2).slips.length, new Papers(kept, 2).notes.length], [0, 2]);
papers.clearNotes();
is([new Papers(kept, 2).slips.length, new Papers(kept, 2).notes.length], [0, 0]);
// who owes a fine that can't be asked for is told as missing, and nothing waits for it
sent = network(turns([reply("fine 20 shelf 1")], { "copy 20": roads("shelf 1"), "loans 20": refusal(13) }));
it = desk();
it.work.scan("check-in", "20");
await until(() => isQuiet(it));
is(it.told.at(-1), ["copy 20: Salt Roads: To the shelf, branch 1. Fine: 0.20. The desk's other answers did not come.", true]);
// a clerk who lends alone may not ask for loans, so a copy is asked for before it comes in; where that tells nobody the fine alone is told, and what waits goes on
const lentTo = "loan 101 due 2026-03-17 patron 2 Bo Carr", fineAlone = "Salt Roads: To the shelf, branch 1. Fine: 0.20.";
for (const [lendsAlone, places, asked, text] of [
  [true, [lentTo, "shelf 1"], ["copy 20", "check-in 20 1", "copy 20", "borrower 2"], `${fineAlone} Bo Carr owes 1.30 now.`],
  [true, ["shelf 1", "shelf 1"], ["copy 20", "check-in 20 1", "copy 20", "loans 20 0"], fineAlone],
  // a loan that is still there isn't the one that ended
  [true, [lentTo, lentTo], ["copy 20", "check-in 20 1", "copy 20", "loans 20 0"], fineAlone],
  [false, ["shelf 1"], ["check-in 20 1", "copy 20", "loans 20 0"], fineAlone],
]) {
  const left = [...places];
  const answer = turns([reply("fine 20 shelf 1"), reply("fine 0 shelf 1")], { "loans": refusal(81), "borrower 2": debtor["borrower 2"], "copy 21": roads("shelf 1").replace("20", "21"), "copy 20": "" });
  sent = network((body) => (JSON.parse(body).join(" ") === "copy 20" ? reply(roads(left.shift())) : answer(body)));
  it = desk(undefined, undefined, undefined, lendsAlone);
  for (const scan of ["20", "21"]) it.work.scan("check-in", scan);
  await until(() => isQuiet(it));
  is([bodies(sent).slice(0, asked.length), it.work.queue.isStopped, it.noted.length, it.noted[0]], [asked, false, 2, `check-in 20 1: ${text}`]);
}
const bo = page(2, "Bo Carr", "loan 2 due 2026-03-09 renewals 0 title 200 Salt Roads", "hold 5 at 2 waiting title 300 Maps, Old and New");
sent = network(turns([reply("loan 2 due 2026-03-09"), reply("hold 5"), reply("owed 40"), reply("fine 0 price 1200")], { "page 2": bo, "copy 20": roads("missing"), ...debtor, "borrower 2": "patron 2 owed 1240 name Bo Carr\nkind 1" }));
it = desk();
it.work.scan("check-out", "2");
it.work.scan("check-out", "20");
it.work.scan("place-hold", "300");
it.work.scan("pay", "0.60");
it.work.words(["missing", "20"]);
await until(() => isQuiet(it));
is(it.noted, ["page 2: Patron 2, Bo Carr: 1 on loan, 1 on hold, owes 0.00.", "check-out 2 20 1: Salt Roads lent to Bo Carr, due 2026-03-09.",
  "place-hold 2 300 1: Hold 5 on Maps, Old and New is placed for Bo Carr.", "pay-at 2 0.60 1: Bo Carr still owes 0.40.", "missing 20: Salt Roads: Fine 0.00, price 12.00. Bo Carr owes 12.40 now."]);

// ---- what is refused is told by the words that were sent, and an amount by what is owed
const owing = "patron 2 owed 40 name Bo Carr";
for (const [words, number, text] of [
  [["pay", "2", "60"], 60, "That is more than is owed (0.40)."],
  [["pay-at", "2", "60", "1"], 60, "That is more than is owed (0.40)."],
  [["charge", "2", "0", "1", "Card"], 60, "That is nothing, or more than is owed."],
  [["waive", "2", "60"], 60, "That is more than is owed (0.40)."],
  [["pay", "2", "0"], 60, "That is nothing, or more than is owed."],
  [["pay", "3", "60"], 60, "That is nothing, or more than is owed."],
  [["cancel-hold", "5"], 53, "This hold is already on the shelf, or has ended."],
  [["unshelve", "5"], 53, "This hold is not on the shelf, or has ended."],
  [["unshelve-cancelled", "5"], 53, "This hold is not on the shelf, or has ended."],
  [["branch", "2", "5", "Harbour"], 81, "The key is wrong, or may not do this."],
]) {
  sent = network(turns([refusal(number)], { "page 2": owing }));
  it = desk();
  it.work.scan("check-out", "2");
  await until(() => isQuiet(it));
  it.work.words(words);
  await until(() => isQuiet(it));
  is(it.told.at(-1), [text, true]);
}

// ---- of a refused copy it is told where it is, and for whom; where that can't be had the refusal stands alone
for (const [scan, number, asked, text] of [
  [["check-out", "20"], 33, roads("ready 1 at 1 until 2026-03-07 patron 3 Cy Dunn"), "copy 20, patron 2: The copy is on the hold shelf. Salt Roads: Ready for Cy Dunn, hold 1, at branch 1 until 2026-03-07."],
  [["check-in", "20"], 33, roads("ready 1 at 1 until 2026-03-07 patron 3 Cy Dunn"), "copy 20: The copy is on the hold shelf. Salt Roads: Ready for Cy Dunn, hold 1, at branch 1 until 2026-03-07."],
  [["check-out", "20"], 31, roads("loan 4 due 2026-03-16 patron 1 Ann Bell"), "copy 20, patron 2: The copy is on loan. Salt Roads: On loan to Ann Bell, due 2026-03-16."],
  [["check-in", "20"], 13, refusal(13), "copy 20: There is no such copy."],
]) {
  sent = network(turns([refusal(number)], { "page 2": bo, "copy 20": asked }));
  it = desk();
  if (scan[0] === "check-out") it.work.scan("check-out", "2");
  it.work.scan(...scan);
  await until(() => isQuiet(it));
  is([it.told.at(-1), it.work.queue.isStopped, it.slips], [[text, true], true, []]);
}

// ---- a copy that is scanned to be renewed renews the loan that it is on, under the key of its scan
sent = network(turns([reply("loan 2 due 2026-03-16")], { "copy 20": roads("loan 2 due 2026-03-09 patron 2 Bo Carr"), "page 2": bo }));
it = desk();
it.work.scan("check-out", "2");
it.work.scan("renew", "C20");
await until(() => isQuiet(it));
is([bodies(sent), it.told.at(-1)], [["page 2", "copy 20", "renew 2", "page 2"], ["Salt Roads renewed for Bo Carr, due 2026-03-16.", false]]);
is(it.receipts.at(-1).slice(1), ["Salt Roads, renewed, due 2026-03-16"]);
sent = network(turns([fault(90), reply("loan 2 due 2026-03-16")], { "copy 20": roads("loan 2 due 2026-03-09 patron 2 Bo Carr") }));
it = desk();
it.work.scan("renew", "20");
await until(() => isQuiet(it));
it.work.queue.sendAgain();
await until(() => isQuiet(it));
is([acts(sent), new Set(keysOf(sent)).size, it.told.at(-1)], [["renew 2", "renew 2"], 1, ["Salt Roads renewed for Bo Carr, due 2026-03-16.", false]]);
sent = network(turns([], { "copy 20": roads("shelf 2") }));
it = desk();
it.work.scan("renew", "20");
await until(() => isQuiet(it));
is([bodies(sent), it.told.at(-1), it.work.queue.isStopped], [["copy 20"], ["copy 20: Salt Roads is not on loan.", true], true]);

// ---- until when a copy stands ready is asked of the hold shelf of its branch
const ready = page(2, "Bo Carr", "hold 7 at 2 ready title 200 Salt Roads", "hold 9 at 1 waiting title 300 Maps, Old and New", "hold 12 at 1 ready title 400 Winter Bees");
const header = "      hold    copy  patron until      title";
sent = network(turns([], { "page 2": ready, "shelf 2 6": `${header}\n         7      20       2 2026-03-07 Salt Roads\nend`, "shelf 1 11": `${header}\n        13      21       3 2026-03-09 Winter Bees\nend` }));
it = desk();
it.work.scan("check-out", "2");
await until(() => isQuiet(it));
is([bodies(sent), it.work.service.visit.untils], [["page 2", "shelf 2 6", "shelf 1 11"], { 7: "2026-03-07" }]);
// what is ready at this branch is told with the page
is([it.told.at(-1), it.noted], [["Patron 2, Bo Carr: 0 on loan, 3 on hold, owes 0.00. 1 hold is ready here.", false], ["page 2: Patron 2, Bo Carr: 0 on loan, 3 on hold, owes 0.00."]]);

// ---- a tab that is loaded anew knows the patron at the desk and the receipt; a closed desk shows nothing that comes later
sent = network(turns([reply("loan 2 due 2026-03-09")], { "page 2": bo }));
it = desk();
it.work.scan("check-out", "2");
it.work.scan("check-out", "20");
await until(() => isQuiet(it));
const back = desk(it.storage);
is([back.work.expected, back.work.service.visit.receipt.rows.map(plain)], [2, ["Salt Roads, due 2026-03-09"]]);
sent = network(turns([reply("fine 0 shelf 1")], { "copy 20": [60_000] }));
back.work.scan("check-in", "20");
await until(() => sent.length === 2);
const toldBefore = back.told.length;
back.leaving.abort();
back.work.end();
await new Promise((done) => setTimeout(done, 5));
is([back.told.length, back.storage.all.size], [toldBefore, 0]);

// ---- a tab that is loaded anew has the mode and the patron that were there: nobody after Next patron, in Check-in or after a card that was refused
sent = network(turns([reply("owed 0")], { "page 2": bo, "page 9": refusal(11) }));
for (const [does, mode, patron, wantedNext] of [
  [(tab) => tab.work.choose("pay"), "pay", 2, "amount"],
  [(tab) => tab.work.choose("renew"), "renew", 2, "copy"],
  [(tab) => tab.work.nextPatron(), "check-out", null, "patron"],
  [(tab) => { tab.work.choose("place-hold"); tab.work.nextPatron(); }, "place-hold", null, "patron"],
  [(tab) => tab.work.choose("check-in"), "check-in", null, "copy"],
  [(tab) => { tab.work.nextPatron(); tab.work.scan("check-out", "9"); }, "check-out", null, "patron"],
]) {
  it = desk();
  it.work.scan("check-out", "2");
  await until(() => isQuiet(it));
  does(it);
  await until(() => isQuiet(it));
  const { turn, expected } = desk(it.storage).work;
  is([turn.mode, expected, wanted(turn.mode, expected)], [mode, patron, wantedNext]);
}
// ---- nothing of a patron stays once the next one is wanted, nor what is answered of them later, but for a refusal
const whole = (tab) => JSON.stringify([tab.shown(), tab.noted, tab.told.at(-1), ...tab.storage.all]);
for (const end of [(tab) => tab.work.nextPatron(), (tab) => tab.work.choose("check-in")]) {
  sent = network(turns([reply("loan 2 due 2026-03-09")], { "page 2": bo }));
  it = desk();
  for (const scan of ["2", "20"]) it.work.scan("check-out", scan);
  await until(() => isQuiet(it));
  is([it.shown().page.name, it.noted.length], ["Bo Carr", 2]);
  end(it);
  is([it.shown(), it.noted, it.told.at(-1), whole(it).includes("Bo Carr")], [null, [], ["", false], false]);
  // as fast as hands are, the answers come later
  it = desk();
  for (const scan of ["2", "20"]) it.work.scan("check-out", scan);
  end(it);
  await until(() => isQuiet(it));
  is([acts(sent).at(-1), it.shown(), whole(it).includes("Bo Carr")], ["check-out 2 20 1", null, false]);
}
sent = network(turns([refusal(36)], { "page 2": bo, "page 4": page(4, "Di Eck") }));
it = desk();
for (const scan of ["2", "20"]) it.work.scan("check-out", scan);
it.work.nextPatron();
await until(() => isQuiet(it));
is([it.shown(), it.told.at(-1), it.work.queue.isStopped], [null, ["copy 20, patron 2: Another patron is waiting for this title. Any: On the shelf, branch 1.", true], true]);
it.work.queue.sendOn();
it.work.scan("check-out", "4");
await until(() => isQuiet(it));
is([it.shown().page.name, whole(it).includes("Bo Carr")], ["Di Eck", false]);
// a refusal of the last scan goes with its patron once the clerk can have seen it, and the next card is sent; where something waits it stays
for (const [pause, waits, stays] of [[0, [], true], [650, [], false], [650, ["21"], true]]) {
  sent = network(turns([refusal(36)], { "page 2": bo, "page 4": page(4, "Di Eck") }));
  it = desk();
  for (const scan of ["2", "20", ...waits]) it.work.scan("check-out", scan);
  await until(() => isQuiet(it) && it.told.at(-1)[0].startsWith("copy 20, patron 2: Another patron is waiting for this title. Any:"));
  await new Promise((done) => setTimeout(done, pause));
  it.work.nextPatron();
  it.work.scan("check-out", "4");
  await until(() => isQuiet(it));
  is([it.work.queue.isStopped, bodies(sent).includes("page 4"), it.told.at(-1)[0].startsWith("copy 20")], [stays, !stays, stays]);
  it.work.sendOn();
  await until(() => isQuiet(it));
  if (waits.length === 0) is([it.shown().page.name, whole(it).includes("Bo Carr")], ["Di Eck", false]);
}
// a look-up that fails shows nobody; where it is sent again and comes, it is that patron's turn
for (const [answer, patron] of [[refusal(11), null], [fault(91), 4], [[5, 403, "<html>"], 4]]) {
  sent = network(turns([answer, reply(page(4, "Di Eck"))], { "page 2": bo }));
  it = desk();
  it.work.scan("check-out", "2");
  await until(() => isQuiet(it));
  it.work.nextPatron();
  it.work.scan("check-out", "4");
  await until(() => isQuiet(it));
  is([it.shown(), it.work.expected, whole(it).includes("Bo Carr")], [null, patron, false]);
  if (patron === null) continue;
  it.work.queue.sendAgain();
  await until(() => isQuiet(it));
  is([it.shown().page.name, it.work.expected], ["Di Eck", 4]);
}
// also while its page is still being asked for
sent = network([[60_000]]);
it = desk();
it.work.scan("check-out", "2");
is(desk(it.storage).work.expected, 2);

// ---- a receipt has the library's day, whatever that of the machine, also where it is told late; it moves only forward, and by `begin-day` at once
const answersOfDay = [];
let timesShown = 0;
const library = new LibraryDay((words) => { is(words, ["today"]); return new Promise((done) => { answersOfDay.push(done); }); }, () => { timesShown += 1; });
sent = network(turns([reply("ok")], { "page 2": bo, "page 4": page(4, "Di Eck") }));
it = desk(new Kept(), library);
it.work.scan("check-out", "2");
await until(() => isQuiet(it));
is([it.receipts.at(-1), library.now, answersOfDay.length], [["Bo Carr, …, branch 1"], null, 1]);
library.look();
is(answersOfDay.length, 1);
answersOfDay[0]({ reply: { kind: "day", day: "2026-03-02" } });
await until(() => timesShown === 1);
await until(() => it.receipts.at(-1)[0] === "Bo Carr, 2026-03-02, branch 1");
it.work.words(["begin-day", dayOf]);
await until(() => isQuiet(it));
is([library.now, it.receipts.at(-1)], [dayOf, ["Bo Carr, 2026-03-02, branch 1"]]);
it.work.nextPatron();
it.work.scan("check-out", "4");
await until(() => isQuiet(it));
answersOfDay[1]({ reply: { kind: "day", day: "2026-03-02" } });
await until(() => library.asking === null);
is([library.now, it.receipts.at(-1), desk(it.storage).work.service.visit.receipt.day], [dayOf, [`Di Eck, ${dayOf}, branch 1`], dayOf]);
library.look();
answersOfDay[2]({ refusal: 81 });
await until(() => library.asking === null);
is(library.now, dayOf);

// ---- a receipt is its patron's alone: what is done for others, or asked, isn't on it, nor a card key
const ann = page(1, "Ann Bell", "loan 1 due 2026-03-09 renewals 0 title 100 Rivers of the North", "hold 7 at 2 waiting title 200 Salt Roads", "hold 8 at 1 waiting from 2026-04-01 title 400 Winter Bees");
sent = network(turns([reply("loan 1 due 2026-03-09"), reply("loan 9 due 2026-03-10"), reply("owed 40"), reply("owed 0"), reply("hold 7"), reply("hold 8"), reply("hold 9"),
  reply("owed 5"), reply("owed 0"), reply("ok")], { "page 1": ann, "page 2": page(2, "Bo Carr") }));
it = desk();
it.work.scan("check-out", "1");
for (const words of ["renew 1", "renew 9", "pay 1 250", "waive 1 40", "place-hold 1 200 2", "place-hold-from 1 400 1 2026-04-01", "place-hold 2 100 1", "pay 2 30", "waive 2 5", "missing 20"]) {
  it.work.words(words.split(" "));
}
it.work.words(["page", "2"]);
it.work.words(["patron", "2", "1", "cardkey00002", "Bo Carr"]);
await until(() => isQuiet(it));
is(it.receipts.at(-1), [`Ann Bell, ${dayOf}, branch 1`, "Rivers of the North, renewed, due 2026-03-09", "Paid 2.50, still owed 0.40",
  "Salt Roads, hold 7, to be picked up at branch 2", "Winter Bees, hold 8 from 2026-04-01, to be picked up at branch 1"]);
is(JSON.stringify([it.receipts, it.noted, it.told]).includes("cardkey"), false);
// what is taken or charged at a counter says where, and a charge what it is for
sent = network(turns([reply("owed 250"), reply("owed 150"), reply("owed 600"), reply("owed 130")], { "page 2": page(2, "Bo Carr") }));
it = desk();
it.work.scan("check-out", "2");
for (const words of [["charge", "2", "250", "1", "Photocopies, 10 pages"], ["pay-at", "2", "100", "2"], ["charge", "3", "600", "2", "Lost card"], ["waive", "2", "20"]]) it.work.words(words);
await until(() => isQuiet(it));
is(it.receipts.at(-1), [`Bo Carr, ${dayOf}, branch 1`, "Photocopies, 10 pages: 2.50 charged at branch 1, now owed 2.50", "Paid 1.00 at branch 2, still owed 1.50"]);
is(it.noted.slice(1), ["charge 2 2.50 1 Photocopies, 10 pages: 2.50 charged for Photocopies, 10 pages. Bo Carr owes 2.50 now.", "pay-at 2 1.00 2: Bo Carr still owes 1.50.",
  "charge 3 6.00 2 Lost card: Still owed: 6.00.", "waive 2 0.20: Bo Carr still owes 1.30."]);
// a card that is scanned again begins another receipt
it.work.nextPatron();
it.work.scan("check-out", "2");
await until(() => isQuiet(it));
is(it.receipts.at(-1), [`Bo Carr, ${dayOf}, branch 1`]);
// ---- after a correction the page of the patron at the desk is asked for, and a copy is looked at; a new card key is told nowhere
sent = network(turns([reply("ok")], { "page 1": ann }));
it = desk();
it.work.scan("check-out", "1");
for (const words of [["amend-title", "100", "Rivers"], ["amend-title", "400", "Bees"], ["amend-title", "300", "Maps"], ["amend-patron", "1", "1", "Ann Özil"], ["card-key", "1", "newkey000001"], ["amend-patron", "2", "1", "Bo"],
  ["card-key", "2", "newkey000002"], ["amend-branch", "1", "5", "Main"], ["amend-copy", "10", "1", "900"], ["rehome", "10", "2"]]) {
  it.work.words(words);
}
await until(() => isQuiet(it));
is(bodies(sent), ["page 1", ...["amend-title 100 Rivers", "amend-title 400 Bees", "amend-title 300 Maps", "amend-patron 1 1 Ann Özil", "card-key 1 newkey000001", "amend-patron 2 1 Bo", "card-key 2 newkey000002",
  "amend-branch 1 5 Main"].flatMap((words) => [words, "page 1"]), "amend-copy 10 1 900", "copy 10", "page 1", "rehome 10 2", "copy 10", "page 1"]);
is(it.noted.filter((text) => /^card-key|^rehome/.test(text)), ["card-key 1 …: Done. For Ann Bell.", "card-key 2 …: Done.", "rehome 10 2: Any: Done. On the shelf, branch 1."]);
is(JSON.stringify([it.receipts, it.noted, it.told, ...it.storage.all]).includes("newkey"), false);
// ---- the panel of the patron is always of now: after each command that does more than ask, typed or scanned, and where its own page was asked for
const oweing = (owed) => `patron 1 owed ${owed} name Ann Bell\nhold 7 at 2 ready title 200 Salt Roads`;
for (const name of Object.keys(COMMANDS)) {
  let owed = 0;
  const shelved = reply(`${"      hold    copy  patron until      title"}\n         7      20       1 2026-03-07 Salt Roads\nend`);
  sent = network((body) => {
    const words = JSON.parse(body);
    if (words[0] === "page") return reply(oweing(words[1] === "1" ? owed : 9999));
    if (words[0] === "shelf") return shelved;
    if (words[0] === "copy") return reply("copy 1 home 1 kind 1 price 100 title 1 Any\nshelf 1");
    owed += QUESTIONS.includes(words[0]) ? 0 : 1;
    return reply("ok");
  });
  it = desk();
  it.work.scan("check-out", "1");
  await until(() => isQuiet(it));
  const words = [name, ...COMMANDS[name].map((part) => (part === "day" ? dayOf : "1"))];
  it.work.words(words);
  await until(() => isQuiet(it));
  is([it.shown().page.owed, it.shown().untils], [QUESTIONS.includes(name) ? 0 : 1, { 7: "2026-03-07" }]);
  it.work.words(["page", "1"]);
  await until(() => isQuiet(it));
  is([it.shown().page.owed, it.told.at(-1)[1]], [owed, false]);
}
// where a copy that is typed in is of the patron at the desk, a hold may become ready: it is asked until when
sent = network(turns([reply("fine 40 ready 7 at 2 until 2026-03-07")], { "page 1": page(1, "Ann Bell", "loan 1 due 2026-03-09 renewals 1 title 200 Salt Roads") }));
it = desk();
it.work.scan("check-out", "1");
await until(() => isQuiet(it));
sent = network(turns([reply("fine 40 ready 7 at 2 until 2026-03-07")], { "page 1": oweing(40), "loans 20": "loan 1 patron 1 made 2026-03-02 due 2026-03-09 ended 2026-03-11\nend", "borrower 1": "patron 1 owed 40 name Ann Bell\nkind 1", "shelf 2 6": `      hold    copy  patron until      title\n         7      20       1 2026-03-07 Salt Roads\nend` }));
it.work.words(["check-in", "20", "2"]);
await until(() => isQuiet(it));
is([bodies(sent), it.shown().page.owed, it.shown().untils], [["check-in 20 2", "copy 20", "loans 20 0", "borrower 1", "page 1", "shelf 2 6"], 40, { 7: "2026-03-07" }]);
// of whoever has left nothing more is asked
sent = network(turns([reply("fine 0 shelf 1")], { "page 1": page(1, "Ann Bell") }));
it = desk();
it.work.scan("check-out", "1");
it.work.choose("check-in");
for (const scan of ["20", "21"]) it.work.scan("check-in", scan);
await until(() => isQuiet(it));
is(bodies(sent), ["page 1", "check-in 20 1", "copy 20", "check-in 21 1", "copy 21"]);
// where the page doesn't come, what was lent stands on it all the same, and it is told
sent = network(turns([reply("loan 1 due 2026-03-09")], { "page 1": page(1, "Ann Bell") }));
it = desk();
it.work.scan("check-out", "1");
await until(() => isQuiet(it));
sent = network(turns([reply("loan 1 due 2026-03-09")], { "page 1": fault(92) }));
it.work.scan("check-out", "10");
await until(() => isQuiet(it));
is(it.receipts.at(-1), [`Ann Bell, ${dayOf}, branch 1`, "Loan 1, due 2026-03-09."]);
is(it.told.at(-1), ["copy 10, patron 1: Loan 1, due 2026-03-09. The desk's other answers did not come.", true]);
is(receiptRow(1, ["check-out", "2", "10", "1"], { kind: "lent", loan: 1, due: "2026-03-09" }, null), null);
is([receiptEnd({ owed: 0 }), receiptEnd({ owed: 1240 })], ["Nothing is owed.", "Owed: 12.40."]);

// ---- what waits where a tab is closed is there again at the next sign-in at its branch on this machine, under its keys, and is sent once the clerk says so
const machine = new Kept();
const tabOf = (branch, key = "annkey000001") => new LeftBehind(branch, key, new Kept(), machine);
for (const [acts1, wantedActs] of [[[[60_000]], ["check-in 1 1", "check-in 2 1", "check-in 3 1"]], [[fault(91)], ["check-in 1 1", "check-in 2 1", "check-in 3 1"]], [[refusal(13)], ["check-in 2 1", "check-in 3 1"]]]) {
  const closedTab = tabOf("1");
  sent = network(turns(acts1, { "copy 1": refusal(13) }));
  it = desk(new Kept(), undefined, (items) => closedTab.keep(items));
  for (const scan of ["1", "2", "3"]) it.work.scan("check-in", scan);
  it.work.words(["card-key", "2", "newkey000002"]);
  await until(() => sent.length > 0 && (it.work.queue.isStopped || acts1[0][0] === 60_000));
  const [firstKey] = keysOf(sent);
  is([JSON.stringify([...machine.all]).includes("newkey"), machine.length], [false, 1]);
  it.leaving.abort();
  it.work.queue.changed = () => {};
  it.work.queue.keep = () => {};
  // a tab that is open, another branch and another clerk have nothing of it, and no key is told
  is([tabOf("1").take([closedTab.tab]), tabOf("2").take([]), tabOf("1", "bokey0000001").take([])], [[], [], []]);
  is(JSON.stringify([...machine.all]).includes("annkey"), false);
  const newTab = tabOf("1");
  it = desk(new Kept(), undefined, (items) => newTab.keep(items));
  it.work.queue.takeOver(newTab.take([]));
  is([it.work.queue.isStopped, it.waiting().length, machine.length, tabOf("1").take([newTab.tab])], [true, wantedActs.length + 1, 1, []]);
  sent = network(turns([reply("fine 0 shelf 1")]));
  it.work.scan("check-in", "4");
  is(sent.length, 0);
  it.work.queue.sendOn();
  await until(() => isQuiet(it));
  is([acts(sent), it.told.at(-1), keysOf(sent)[0] === firstKey], [wantedActs, [TEXTS.cardKeyNotKept, true], wantedActs.length === 3]);
  it.work.queue.throwAway();
  is([it.work.queue.isEmpty, machine.length], [true, 0]);
}
// a desk that is left to another clerk keeps what waits, and what stopped it, for the first one; nothing of it stays in the tab, nor is anything sent by the second one
for (const [answer, leftItems] of [[[60_000], ["copy 1", "copy 2", "copy 3"]], [fault(91), ["copy 1", "copy 2", "copy 3"]], [refusal(36), ["copy 1", "copy 2", "copy 3"]], [reply("fine 0 shelf 1", 0), []]]) {
  const [coveredTab, locked] = [tabOf("1"), []];
  coveredTab.beOpen({ request: (name, open) => locked.push(name, open()) });
  let isLeft = false;
  locked[1].then(() => { isLeft = true; });
  sent = network(turns([answer]));
  it = desk(new Kept(), undefined, (items) => coveredTab.keep(items));
  for (const scan of ["1", "2", "3"]) it.work.scan("check-in", scan);
  await until(() => isQuiet(it) || (answer[0] === 60_000 && sent.length === 1));
  const [firstKey, before] = [keysOf(sent)[0], sent.length];
  is([it.work.leave(), isLeft], [leftItems.length > 0, false]);
  it.leaving.abort();
  coveredTab.leave();
  await new Promise((done) => setTimeout(done, 5));
  is([sent.length - before, it.storage.all.size, it.work.queue.isEmpty, isLeft, machine.length], [0, 0, true, true, Math.min(leftItems.length, 1)]);
  is([tabOf("1", "bokey0000001").take([]), JSON.stringify([...machine.all]).includes("key0000")], [[], false]);
  const firstAgain = tabOf("1");
  it = desk(new Kept(), undefined, (items) => firstAgain.keep(items));
  it.work.queue.takeOver(firstAgain.take([]));
  is(it.waiting(), leftItems);
  sent = network(turns([reply("fine 0 shelf 1")]));
  it.work.queue.sendOn();
  await until(() => isQuiet(it));
  is([acts(sent), keysOf(sent)[0] === firstKey, machine.length], [leftItems.map((item) => `check-in ${item.slice(5)} 1`), leftItems.length > 0, 0]);
}
// for whom it was scanned is kept with it, also where it wasn't known yet whose the card is
sent = network(lending(), () => [60_000]);
const cardTab = tabOf("1");
it = desk(new Kept(), undefined, (items) => cardTab.keep(items));
for (const scan of ["20000000000004", "21"]) it.work.scan("check-out", scan);
is(it.work.leave(), true);
it.leaving.abort();
sent = network(lending(), labelled());
it = desk();
it.work.queue.takeOver(tabOf("1").take([]));
it.work.queue.sendOn();
await until(() => isQuiet(it));
is([acts(sent), it.shown(), it.work.expected], [["check-out 4 21 1"], null, null]);
// what a page from before kept has no mark, and is anybody's
machine.setItem("circ.waiting.before", JSON.stringify({ branch: "1", items: [["check-in", "9", "1"]] }));
is(tabOf("1", "bokey0000001").take([]), [["check-in", "9", "1"]]);
// what is closed by its button isn't left behind
sent = network([[60_000]]);
const mineTab = tabOf("1");
it = desk(new Kept(), undefined, (items) => mineTab.keep(items));
it.work.scan("check-in", "1");
is(machine.length, 1);
it.leaving.abort();
it.work.end();
is(machine.length, 0);
is([await openTabs(null), await openTabs({ query: async () => ({ held: [{ name: "circ.waiting.a" }, { name: "b" }] }) })], [[], ["a"]]);

// ---- once the desk is closed nothing more is sent, shown or kept
sent = network([[60_000]]);
it = desk();
for (const scan of ["1", "2"]) it.work.scan("check-in", scan);
await until(() => sent.length === 1);
it.leaving.abort();
is(it.work.end(), { unknown: ["copy 1"], unsent: ["copy 2"] });
const before = it.noted.length;
await new Promise((done) => setTimeout(done, 5));
is([sent.length, it.noted.length - before, it.storage.all.size], [1, 0, 0]);
// as long as it is asked whose barcode it is nothing was sent
sent = network([[60_000]], () => [60_000]);
it = desk();
for (const scan of ["1", "2"]) it.work.scan("check-in", scan);
is(it.work.end(), { unknown: [], unsent: ["copy 1", "copy 2"] });
// what only asks has nothing that is unknown, and what met a fault may have been done
sent = network([[60_000]]);
it = desk();
it.work.scan("check-out", "4");
it.leaving.abort();
is(it.work.end(), { unknown: [], unsent: [] });
sent = network([fault(91)]);
it = desk();
it.work.scan("check-in", "1");
await until(() => isQuiet(it));
is(it.work.end(), { unknown: ["copy 1"], unsent: [] });

// ---- a patron's request goes on under its key only while that patron is signed in
function signIn(number, storage) {
  let unknown = 0;
  const patron = new SignedIn({ number, key: `cardkey0000${number}` }, () => { unknown += 1; }, storage);
  return { patron, unknown: () => unknown };
}
const tab = new Kept();
sent = network((_, at) => (at < 2 ? [[0, null], [60_000]][at] : refusal(42, 0)));
const cy = signIn("3", tab);
const renewing = cy.patron.act("/loans/1/renew");
is(await cy.patron.act("/loans/1/renew"), null);
await until(() => sent.length === 1 && cy.unknown() === 1);
is([cy.patron.signOut(), tab.all.size], [true, 0]);
is([SignedIn.before(() => {}, tab), await renewing], [null, null]);
sent = network(() => reply("patron 2 owed 0 name Bo Carr"));
const bob = signIn("2", tab);
is([bob.patron.actBefore(), (await bob.patron.look()).reply.name], [null, "Bo Carr"]);
is(sent.map(([path]) => path), ["/patrons/2"]);
is([bob.patron.signOut(), tab.all.size], [false, 0]);
// a page that comes after its patron has left is shown to nobody
sent = network([reply("patron 2 owed 0 name Bo Carr", 20)]);
const late = signIn("2", tab);
const looking = late.patron.look();
late.patron.signOut();
is(await looking, null);
// loaded anew while signed in, it goes on under its key
sent = network([[60_000]]);
const ed = signIn("5", tab);
ed.patron.act("/loans/1/renew");
const [[, edsKey]] = sent;
sent = network(() => reply("loan 1 due 2026-03-09"));
is((await SignedIn.before(() => {}, tab).actBefore()).reply, { kind: "lent", loan: 1, due: "2026-03-09" });
is(sent, [["/patrons/5/loans/1/renew", edsKey, undefined, undefined]]);

// ---- what can't be undone is asked about with the name and the sum, and is sent once the clerk says so; what is in doubt isn't sent
const onShelf = "copy 20 home 2 kind 1 price 1200 title 200 Salt Roads\nshelf 2", onLoan = "copy 20 home 2 kind 1 price 1200 title 200 Salt Roads\nloan 2 due 2026-03-09 patron 2 Bo Carr";
const carr = "patron 2 owed 130 name Bo Carr\nkind 1\nbarcode 20000000000002";
for (const [words, about, copy, question, asked, yes] of [
  [["withdraw", "20"], {}, onShelf, "copy 20", "Withdraw Salt Roads, copy 20? It can't be taken back.", "Withdraw"],
  [["missing", "20"], {}, onShelf, "copy 20", "Report Salt Roads, copy 20, as missing?", "Report as missing"],
  [["missing", "20"], {}, onLoan, "copy 20", "Report Salt Roads, copy 20, as missing? Bo Carr will owe its price of 12.00, and a fine if it is late.", "Report as missing"],
  [["waive", "2", "130"], {}, onLoan, "borrower 2", "Waive 1.30 for Bo Carr?", "Waive 1.30"],
  [["charge", "2", "250", "1", "Photocopies, 10 pages"], {}, onLoan, "borrower 2", "Charge Bo Carr 2.50 for Photocopies, 10 pages?", "Charge 2.50"],
  [["copy-barcode", "20", "a1"], {}, `${onShelf}\nbarcode 30000100000020`, "copy 20", "Give Salt Roads the barcode a1? The old one, 30000100000020, will no longer be good.", "Give the new barcode"],
  [["patron-barcode", "2", "A1"], {}, onLoan, "borrower 2", "Give Bo Carr the barcode A1? The old one, 20000000000002, will no longer be good.", "Give the new barcode"],
  [["drop-barcode", "a1"], { copy: 20 }, onShelf, "copy 20", "Drop the barcode a1 of Salt Roads?", "Drop the barcode"],
  [["drop-barcode", "20000000000002"], { patron: 2 }, onShelf, "borrower 2", "Drop the barcode 20000000000002 of Bo Carr?", "Drop the barcode"],
  [["drop-barcode", "01"], {}, onShelf, "find-barcode 01", "Drop the barcode 01 of copy 11?", "Drop the barcode"],
  [["card-key", "2", "newkey000002"], {}, onLoan, "borrower 2", "Give Bo Carr a new card key? The old one will no longer be good.", "Give the new key"],
  [["cancel-hold", "7"], { patron: 2, text: "Tides" }, onLoan, "borrower 2", "Cancel the hold of Bo Carr on Tides?", "Cancel the hold"],
  [["unshelve-cancelled", "7"], { name: "Bo Carr", text: "Tides" }, onLoan, null, "Cancel the hold of Bo Carr on Tides, which stands ready?", "Cancel the hold"],
]) {
  const before = question === null || question.startsWith("find-barcode") ? [] : [question];
  const found = { "copy 20": copy, "copy 1": "copy 1 home 1 kind 1 price 100 title 1 Any\nshelf 1", "borrower 2": carr };
  const whose = (barcode) => (barcode === "01" ? reply("copy 11") : refusal(18));
  sent = network(turns([reply("ok")], found), whose);
  it = desk();
  it.work.press(words, about);
  it.work.scan("check-in", "1");
  await until(() => isQuiet(it));
  is([bodies(sent), it.work.queue.isStopped, it.told.at(-1), it.waiting()], [before, true, [asked, true], ["copy 1"]]);
  is(sent.barcodes.map((barcode) => `find-barcode ${barcode}`), before.length === 0 && question !== null ? [question] : []);
  const { held } = it.work.queue;
  is([plain(held.asked.asked), plain(held.asked.yes), held.asked.no], [asked, yes, "Don't"]);
  it.work.sendAgain("");
  await until(() => isQuiet(it));
  is(acts(sent), [words.join(" "), "check-in 1 1"]);
  is(it.ended[0], [words.join(" "), null]);
  // without it nothing is done
  sent = network(turns([reply("ok")], found), whose);
  it.work.press(words, about);
  await until(() => isQuiet(it));
  it.work.sendOn();
  await until(() => isQuiet(it));
  is([bodies(sent), it.work.queue.isEmpty], [before, true]);
}
// what a copy or a patron can't be looked up for isn't asked about, and is never sent unasked
for (const [answer, told] of [[refusal(13), "There is no such copy."], [fault(91), /^Fault 91: /], [[5, 403, "<html>"], /status 403/], [reply("end"), /status 200/]]) {
  sent = network(turns([reply("ok")], { "copy 20": answer }));
  it = desk();
  it.work.press(["withdraw", "20"]);
  await until(() => isQuiet(it));
  is([bodies(sent), it.work.queue.held, it.work.queue.isStopped, typeof told === "string" ? it.told.at(-1)[0] === told : told.test(it.told.at(-1)[0])], [["copy 20"], null, false, true]);
  is(it.ended, [["copy 20", answer[1] === 409 ? 13 : 0]]);
  it.work.queue.sendAgain();
  await until(() => isQuiet(it));
  is(bodies(sent), ["copy 20"]);
}
// a first barcode takes nothing away and isn't asked about; what met a fault then is sent again under its key
for (const [words, asked] of [[["copy-barcode", "20", "a1"], "copy 20"], [["patron-barcode", "2", "A1"], "borrower 2"]]) {
  sent = network(turns([fault(91), reply("ok")], { "copy 20": onShelf, "borrower 2": "patron 2 owed 0 name Bo Carr\nkind 1" }));
  it = desk();
  it.work.press(words);
  await until(() => isQuiet(it));
  is([bodies(sent), it.work.queue.isStopped, needsConfirming(it.work.queue.held), desk(it.storage).work.end().unknown], [[asked, words.join(" ")], true, false, [words.join(" ")]]);
  it.work.sendAgain("");
  await until(() => isQuiet(it));
  is([acts(sent), new Set(keysOf(sent)).size, it.ended], [Array(2).fill(words.join(" ")), 1, [[words.join(" "), 0], [words.join(" "), null]]]);
}
// no name is kept on the machine, and where the tab is closed it is asked about anew
let keptOfIt = [];
sent = network(turns([reply("ok")], { "borrower 2": carr }));
it = desk(new Kept(), undefined, (items) => { keptOfIt = items; });
it.work.press(["waive", "2", "130"]);
await until(() => isQuiet(it));
is([it.work.queue.isStopped, JSON.stringify(keptOfIt).includes("Bo Carr"), keptOfIt.length], [true, false, 1]);
it = desk();
it.work.queue.takeOver(keptOfIt);
sent = network(turns([reply("ok")], { "borrower 2": carr }));
it.work.sendOn();
await until(() => isQuiet(it));
is([bodies(sent), it.told.at(-1)[0]], [["borrower 2"], "Waive 1.30 for Bo Carr?"]);
// the question is there again in a tab that is loaded anew, and what wasn't asked about yet is unsent
sent = network(turns([reply("ok")], { "copy 20": onShelf }));
it = desk();
it.work.press(["withdraw", "20"]);
await until(() => isQuiet(it));
const askedAnew = desk(it.storage);
askedAnew.work.queue.run();
is([askedAnew.work.queue.isStopped, plain(askedAnew.work.queue.held.asked.asked), askedAnew.work.end()], [true, "Withdraw Salt Roads, copy 20? It can't be taken back.", { unknown: [], unsent: ["withdraw 20"] }]);
// what can be undone is sent at once, and how it ended is told
sent = network([refusal(10), reply("ok")]);
it = desk();
for (const branch of ["9", "1"]) it.work.press(["close-day", branch, "2026-12-24"]);
await until(() => isQuiet(it));
it.work.queue.sendOn();
await until(() => isQuiet(it));
is(it.ended, [["close-day 9 2026-12-24", 10], ["close-day 1 2026-12-24", null]]);
is(Object.keys(COMMANDS).filter((name) => isAskedFirst([name])), ["card-key", "copy-barcode", "patron-barcode", "drop-barcode", "cancel-hold", "unshelve-cancelled", "missing", "withdraw", "waive", "charge"]);

console.log(`hands: ${tried} tried`);
