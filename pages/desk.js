// The desk: it is opened with its key and its branch, and closed.

import { act } from "./acting.js";
import { askUntilAnswered, newKey } from "./asking.js";
import { Branches } from "./branches.js";
import { isKey } from "./commands.js";
import { Cover } from "./cover.js";
import { clearLists, clearLookUps, listEnded, listenForLists, showList, showTillDay } from "./desk_lists.js";
import { EntryForms } from "./entry_forms.js";
import { plain } from "./isolating.js";
import { LeftBehind, openTabs } from "./left_behind.js";
import { LibraryDay } from "./library_day.js";
import { lookFirst } from "./opening.js";
import { Papers } from "./papers.js";
import { readList } from "./questions.js";
import { backToLine, focusScan, listenForScans } from "./scan_line.js";
import { wanted } from "./scans.js";
import { MOST_NOTES, clearNotes, it, mode, note, print, putSlipsAway, showHead, showMode, showOpen, showSlip, showTold, showVisit, showWaiting, showWanted, tell, tellQuietly } from "./screen.js";
import { SearchBox } from "./search_box.js";
import { isSoundOn, switchSound } from "./sound.js";
import { listenForTabs, showTab } from "./tabs.js";
import { TEXTS, branchName, fillIn, say } from "./texts.js";
import { silence, speak } from "./voice.js";
import { listenForWords } from "./word_line.js";
import { Work } from "./work.js";
import { YearView } from "./year_view.js";

const DESK = "circ.desk-key";
const MINUTE = 60_000;
// what is under way while the desk is open, and what ends it
const here = { work: null, leaving: null, day: null, asking: null, papers: null, behind: null };
const branches = new Branches(localStorage);
const forms = new EntryForms((words) => {
  here.work.press(words);
  focusScan();
}, (words) => openDesk().ask(words, () => tellUnknown(TEXTS.unknownOpening)));

function desk() {
  const text = sessionStorage.getItem(DESK);
  return text === null ? null : JSON.parse(text);
}

// Sends words by the key of a desk under a key of theirs, until they are answered or the signal ends it; `unknown` is called each time that no answer came.
function askBy(keyValue, signal, words, requestKey, unknown) {
  const request = { method: "POST", path: "/desk", keyField: "Desk-Key", keyValue, requestKey, body: JSON.stringify(words.map(String)) };
  return askUntilAnswered(request, unknown, { signal });
}

// Tells without a sound that no answer came, and speaks it once, however often it is.
function tellUnknown(text) {
  if (it("told").textContent !== plain(text)) speak(plain(text), true);
  tellQuietly(text, true);
}

function showDay() {
  showHead(desk().branch, here.day.now);
  if (here.day.now !== null) showTillDay(here.day.now);
}

const screen = {
  told: (text, isWrong, isSpecial) => {
    showTold(text, isWrong, isSpecial);
    if (isWrong) backToLine();
  },
  toldMore: (text) => tellQuietly(text, true),
  noted: (...what) => {
    note(...what);
    here.papers.addNote(...what);
  },
  waiting: (queue) => {
    showDay();
    showWaiting(queue);
  },
  wanted: showWanted,
  sought: (text) => search.seek(text),
  visit: (visit) => showVisit(visit, (action) => act(openDesk(), action)),
  slip: (slip) => {
    showSlip(slip);
    here.papers.addSlip(slip);
  },
  nobody: () => {
    clearNotes();
    here.papers.clearNotes();
    silence();
    clearLookUps();
    forms.clearPatron();
  },
  ended: (words, refusal) => {
    forms.ended(words, refusal);
    if (refusal !== null) return;
    listEnded(openDesk(), words);
    year.ended(words);
    if (["branch", "amend-branch"].includes(words[0])) learnBranches();
  },
};

// The open desk, as what is pressed and what is asked of it have it.
function openDesk() {
  const { branch, key } = desk();
  const ask = (words, unknown = () => {}) => askBy(key, here.leaving.signal, words, newKey(), unknown);
  return { branch, day: here.day.now, work: here.work, ask, forms, act: (action) => act(openDesk(), action), showList: (question, about) => showList(openDesk(), question, about) };
}

// Asks for the branches as the library names them.
async function learnBranches() {
  const answer = await openDesk().ask(["branches", 0]);
  const list = answer?.reply && readList("branches", answer.text);
  if (desk() !== null) showBranches(list ? list.rows : null);
}

// Shows the branches by their names, for the fields that choose one; where the library doesn't tell them, the desk's own.
function showBranches(rows) {
  const { branch } = desk();
  if (rows !== null) branches.learn(rows);
  const offered = branches.all.length > 0 ? branches.all : [[branch, branchName(branch)]];
  forms.offer(offered, branch);
  year.offer(offered, branch);
  offerBranches();
  showDay();
}

const year = new YearView(openDesk);
const cover = new Cover(() => desk().key, focusScan, leave);

// The branches that this machine knows, for whoever signs in.
function offerBranches() {
  it("branches").replaceChildren(...branches.all.map(([, name]) => new Option(name)));
}

it("print-receipt").addEventListener("click", () => print("receipt"));
it("print-slips").addEventListener("click", () => print("slips"));
it("put-away").addEventListener("click", () => {
  putSlipsAway();
  here.papers.clearSlips();
  focusScan();
});

it("sound").checked = isSoundOn();
it("sound").addEventListener("change", () => {
  switchSound(it("sound").checked);
  focusScan();
});

function open() {
  showOpen(true);
  here.leaving = new AbortController();
  const { key, branch, lendsAlone } = desk();
  const { signal } = here.leaving;
  const ask = (words, requestKey, unknown) => askBy(key, signal, words, requestKey, () => tellUnknown(unknown));
  here.day = new LibraryDay((words) => askBy(key, signal, words, newKey(), () => {}), showDay);
  here.asking = setInterval(() => here.day.look(), MINUTE);
  here.papers = new Papers(sessionStorage, MOST_NOTES);
  for (const slip of here.papers.slips) showSlip(slip);
  for (const what of here.papers.notes) note(...what);
  here.behind = new LeftBehind(branch, key, sessionStorage, localStorage);
  here.behind.beOpen();
  here.work = new Work({ branch, ask, screen, storage: sessionStorage, day: here.day, lendsAlone, kept: (items) => here.behind.keep(items) });
  showMode(here.work.turn.mode);
  here.work.showTurn();
  focusScan();
  if (here.work.queue.isStopped) tell(TEXTS.stillStopped, true);
  here.work.queue.run();
  if (here.work.service.visit?.receipt.day === null) here.work.service.lookForDay();
  else here.day.look();
  cover.idle.begin();
}

// Opens the desk once its key and its branch are found right.
async function tryToOpen(key, branch) {
  here.leaving?.abort();
  const mine = new AbortController();
  here.leaving = mine;
  tell(TEXTS.sending);
  const found = await lookFirst((words) => askBy(key, mine.signal, words, newKey(), () => tellUnknown(TEXTS.unknownOpening)), branch);
  if (found === null || mine !== here.leaving) return;
  if (found.problem !== null) return tell(found.problem, true);
  sessionStorage.setItem(DESK, JSON.stringify({ key, branch, lendsAlone: found.rows === null }));
  branches.here = branch;
  it("desk-key").value = "";
  tell("");
  const tabs = await openTabs();
  if (mine !== here.leaving) return;
  open();
  takeOver(here.behind.take(tabs));
  showBranches(found.rows);
}

// Puts what waited in a tab that is closed before the clerk, who says whether it is sent.
function takeOver(items) {
  here.work.queue.takeOver(items);
  if (items.length > 0) tell(TEXTS.leftBehind, true);
}

// Whoever closes the page while something waits is asked by the browser.
window.addEventListener("beforeunload", (event) => here.work?.queue.isEmpty === false && event.preventDefault());

it("sign-in").addEventListener("submit", (event) => {
  event.preventDefault();
  const key = it("desk-key").value.trim();
  const branch = branches.numberOf(it("branch").value.trim());
  if (!isKey(key)) return tell(say(TEXTS.wrongForm, { what: TEXTS.cardKeyForm }), true);
  if (branch === null) return tell(say(TEXTS.wrongForm, { what: TEXTS.branchForm }), true);
  return tryToOpen(key, branch);
});

// What is told at closing: what may have been done, and what was not sent.
function closing(unknown, unsent) {
  const told = [[TEXTS.closedUnknown, unknown], [TEXTS.closedWaiting, unsent]].filter(([, what]) => what.length > 0);
  return told.map(([text, what]) => say(text, { what: what.join("; ") })).join(" ") || TEXTS.closed;
}

// Leaves nothing of the open desk on the page, and tells.
function close(text, isWrong) {
  here.leaving.abort();
  here.behind.leave();
  search.end();
  cover.idle.end();
  sessionStorage.clear();
  showVisit(null);
  putSlipsAway();
  clearLists();
  showHead(null, null);
  clearInterval(here.asking);
  showOpen(false);
  clearNotes();
  for (const form of document.forms) form.reset();
  forms.clear();
  year.clear();
  it("branch").value = branches.here;
  showMode("check-out");
  showTab("circulation");
  silence();
  tell(text, isWrong);
  it("desk-key").focus();
}

it("sign-out").addEventListener("click", () => {
  const { unknown, unsent } = here.work.end();
  close(closing(unknown, unsent), unknown.length + unsent.length > 0);
});

// Leaves a covered desk to another clerk: what waits is kept for the one who scanned it.
function leave() {
  close(here.work.leave() ? TEXTS.leftKept : TEXTS.closed, false);
}

fillIn();
const search = new SearchBox({
  ask: (words, signal) => askBy(desk().key, signal, words, newKey(), () => tellUnknown(TEXTS.unknownOpening)),
  wanted: () => wanted(mode(), here.work.expected),
  take: (number) => here.work.pick(mode(), number),
});
listenForScans({ work: () => here.work, search });
listenForWords(() => here.work);
listenForTabs();
listenForLists(openDesk);
offerBranches();
it("branch").value = branches.here;
if (desk()) {
  open();
  learnBranches();
}
