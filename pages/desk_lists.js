// The view of lists: what is asked of the desk is shown as a table, goes on where there is more, and can be sorted, printed and saved.

import { buttonsOf, renew } from "./action_buttons.js";
import { isAskedFirst } from "./asked_first.js";
import { isBarcode, isNumber, onlyAsk } from "./commands.js";
import { marked, plain, write } from "./isolating.js";
import { readCopy, readList } from "./questions.js";
import { foundBy } from "./replies.js";
import { actionsOfRow } from "./row_actions.js";
import { askForNames } from "./row_names.js";
import { saidNo } from "./saying.js";
import { saveFile } from "./saving.js";
import { cut, nameOf } from "./scans.js";
import { backToLine, focusScan } from "./scan_line.js";
import { it, print } from "./screen.js";
import { csvOf, fileNameOf, sorted, sortedNext } from "./sheet.js";
import { expiredHold, headOf, isOfBranch, namelessOf, tableOf, wordsOfQuestion } from "./tables.js";
import { TEXTS, TOWN, branchName, say } from "./texts.js";
import { speak } from "./voice.js";

// What is shown, what was asked last, and how many lists were asked for: the answer to one that was asked for before the last comes too late. How the rows are sorted, null where they
// are as they came; and what was done with its rows.
const view = { shown: null, last: null, asked: 0, tillDay: "", sorting: null, done: new Set() };

// the questions by the panel that shows what they are answered
const QUESTIONS = {
  lists: ["pulls", "shelf", "transits", "overdue", "debts", "missing-copies", "till", "till-at"],
  patrons: ["find-patrons", "account", "borrower"],
  catalogue: ["find-titles", "copy", "loans", "copies", "queue"],
  settings: ["branches", "closed-days", "kinds", "rules"],
};

export const panelOf = (question) => Object.keys(QUESTIONS).find((panel) => QUESTIONS[panel].includes(question));

function tell(text, isWrong = false) {
  write(it("list-told"), text);
  if (text !== "" && text !== TEXTS.sending) speak(plain(text), isWrong);
  it("list-told").classList.toggle("wrong", isWrong);
  if (isWrong) backToLine();
}

// A row, with a cell for what can be done with it where there is something.
function rowOf(cells, actions, what, patron) {
  const row = document.createElement("tr");
  if (patron !== undefined) row.dataset.patron = patron;
  row.append(...cells.map((text) => {
    const cell = write(document.createElement("td"), text);
    if (/^[0-9.-]+$/.test(text)) cell.className = "whole";
    return cell;
  }));
  if (actions.length > 0) {
    const cell = document.createElement("td");
    cell.className = "actions";
    cell.append(...buttonsOf(actions, what, press));
    row.append(cell);
  }
  return row;
}

// Does what was pressed; what is sent at once isn't offered a second time.
function press(action) {
  if (action.sends && !isAskedFirst(action.sends)) view.done.add(action.sends.join(" "));
  if (action.sends) show(view.shown);
  view.shown.act(action);
}

// What can still be done with a row.
function actionsLeft(row) {
  const { question, day, about, list } = view.shown;
  return actionsOfRow(question, row, { day, about, head: list.head }).filter(({ sends }) => !sends || !view.done.has(sends.join(" ")));
}

// The heads of the columns, by each of which the rows are sorted.
function headsOf(columns) {
  const row = document.createElement("tr");
  row.append(...columns.map((text, column) => {
    const [cell, button] = [document.createElement("th"), document.createElement("button")];
    cell.scope = "col";
    if (view.sorting?.column === column) cell.setAttribute("aria-sort", view.sorting.isDown ? "descending" : "ascending");
    button.type = "button";
    button.textContent = text;
    button.addEventListener("click", () => {
      view.sorting = sortedNext(view.sorting, column);
      show(view.shown);
      it("list-columns").querySelectorAll("button")[column].focus();
    });
    cell.append(button);
    return cell;
  }));
  if (view.shown.list.rows.some((each) => actionsLeft(each).length > 0)) {
    const cell = Object.assign(document.createElement("th"), { scope: "col", className: "actions", textContent: TEXTS.actions });
    row.append(cell);
  }
  return row;
}

// The table that is shown, its rows as they are sorted, each with what it was made of.
function tableShown({ question, list }) {
  const table = tableOf(question, list);
  const made = new Map(table.rows.map((cells, at) => [cells, list.rows[at]]));
  return { ...table, rows: view.sorting === null ? table.rows : sorted(table.rows, view.sorting), made };
}

// The holds of the list that are past their day and are still to be unshelved.
function expiredHolds({ question, list, day }) {
  return list.rows.map((row) => expiredHold(question, row, day)).filter((hold) => hold !== null && !view.done.has(`unshelve ${hold}`));
}

function unshelveAll() {
  for (const hold of expiredHolds(view.shown)) press({ sends: ["unshelve", String(hold)] });
}

function save() {
  saveFile(fileNameOf(view.shown.question, view.shown.day), "text/csv", csvOf(tableShown(view.shown)));
}

// What a row is about, as a screen reader is told it.
const whatOf = ({ text, name, day, kind }) => text ?? name ?? day ?? kind ?? "";

function show({ question, list, branch, day }) {
  const { head, columns, rows, made } = tableShown({ question, list });
  const expired = expiredHolds({ question, list, day });
  write(it("list-head"), head);
  it("list-place").textContent = say(TEXTS.listPlace, { branch: isOfBranch(question) ? branchName(branch) : TOWN, day: day ?? TEXTS.noDay });
  it("list-columns").replaceChildren(headsOf(columns));
  renew(it("list-rows"), rows.map((cells) => rowOf(cells, actionsLeft(made.get(cells)), whatOf(made.get(cells)), made.get(cells).patron)));
  it("unshelve-all").hidden = expired.length < 2;
  it("unshelve-all").textContent = say(TEXTS.unshelveAll, { count: expired.length });
  it("more").hidden = list.after === null;
  it("list-table").hidden = rows.length === 0;
  it("list-paper").hidden = rows.length === 0 && list.after === null;
  tell(rows.length > 0 ? "" : say(TEXTS.ofLabel, { label: head, told: list.after === null ? TEXTS.noRows : TEXTS.noneYet }));
}

// The names that a list doesn't tell come after it, each into its cells, so that nothing moves that is being pressed.
async function showNames(ask) {
  const { shown } = view;
  const { question, list } = shown;
  const column = tableOf(question, list).columns.indexOf(TEXTS.colName);
  const named = (patron, name) => {
    for (const row of list.rows) if (row.patron === patron) row.name = name;
    for (const row of it("list-rows").querySelectorAll(`[data-patron="${patron}"]`)) write(row.children[column], marked(name));
  };
  await askForNames(namelessOf(question, list.rows), { ask, named, isWanted: () => view.shown === shown });
  if (view.shown === shown && view.sorting?.column === column) show(shown);
}

// What was answered, as a list; one without a head is told by what was asked about.
function read(question, about, { reply, text }) {
  if (question === "borrower") return reply.kind === "borrower" ? { head: { patron: reply.patron }, rows: [reply], after: null } : null;
  if (question === "copy") {
    const copy = readCopy(text);
    return copy && { head: { copy: copy.copy }, rows: [copy], after: null };
  }
  const list = readList(question, text);
  return list && { ...list, head: list.head ?? headOf(question, about) };
}

// The panel of what is asked has its answer, and nothing that was asked in another one.
function moveTo(panel) {
  it(panel).insertBefore(it("sheet"), document.getElementById(`${panel}-forms`));
  if (panelOf(view.shown?.question) !== panel) it("list-paper").hidden = true;
}

// Asks, and shows the answer in the panel of the question, below the rows that are there already.
async function ask(desk, question, about, after, before) {
  view.asked += 1;
  view.last = question;
  if (before.length === 0) Object.assign(view, { sorting: null, done: new Set() });
  moveTo(panelOf(question));
  const mine = view.asked;
  tell(TEXTS.sending);
  const words = wordsOfQuestion(question, about, after, desk.branch);
  const answer = await desk.ask(words, () => mine === view.asked && tell(TEXTS.unknownOpening, true));
  if (!answer || mine !== view.asked) return;
  const list = answer.reply && read(question, about, answer);
  if (!list) return tell(saidNo(answer.reply ? { strange: 200 } : answer, words), true);
  view.shown = { question, about, branch: desk.branch, day: desk.day, act: desk.act, list: { ...list, rows: [...before, ...list.rows] } };
  show(view.shown);
  showNames(desk.ask);
}

// What is wrong with what a question is about, which is a text, or a number with its prefix or without.
function problemOf(question, text, { of, number }) {
  if (question.startsWith("find-")) return text === "" ? say(TEXTS.wrongForm, { what: TEXTS.soughtForm }) : null;
  const kind = { copy: "copy", loans: "copy", copies: "title", queue: "title", account: "patron", borrower: "patron", rules: "kind" }[question];
  if (of !== null && of !== kind) return say(TEXTS.otherScanned, { is: nameOf(of), wanted: nameOf(kind) ?? TEXTS.aKind });
  return isNumber(number) ? null : say(TEXTS.wrongForm, { what: TEXTS.numberForm });
}

// Whose a scan is that is looked up: by its barcode, or else by its prefix; null where that isn't told, or something else was asked for meanwhile.
async function scanned(desk, question, text) {
  if (question.startsWith("find-") || question === "rules" || !isBarcode(text)) return cut(text);
  view.asked += 1;
  const mine = view.asked;
  tell(TEXTS.sending);
  const words = ["find-barcode", text];
  const answer = await desk.ask(words, () => mine === view.asked && tell(TEXTS.unknownOpening, true));
  if (!answer || mine !== view.asked) return null;
  const found = foundBy(answer);
  if (found === undefined) tell(saidNo(answer.reply ? { strange: 200 } : answer, words), true);
  return found === null ? cut(text) : found && { of: found.of, number: String(found.number) };
}

// Asks about what stands in the field of a form.
async function lookUp(desk, form, question) {
  const text = form.querySelector("input").value.trim();
  moveTo(panelOf(question));
  view.last = question;
  const scan = await scanned(desk, question, text);
  if (!scan) return;
  const problem = problemOf(question, text, scan);
  if (problem) return tell(problem, true);
  return ask(desk, question, question.startsWith("find-") ? text : scan.number, 0, []);
}

const lookUps = () => [it("finding-patrons"), it("looking-patrons"), it("finding-titles"), it("looking")];

function listenToButtons(desk) {
  for (const button of it("desk").querySelectorAll(".asking button")) {
    button.addEventListener("click", () => ask(desk(), button.value, desk().branch, 0, []));
  }
  it("more").addEventListener("click", () => ask(desk(), view.shown.question, view.shown.about, view.shown.list.after, view.shown.list.rows));
  it("print-list").addEventListener("click", () => print("list"));
  it("save-list").addEventListener("click", save);
  it("unshelve-all").addEventListener("click", unshelveAll);
}

// Shows the answer to a question about something.
export function showList(desk, question, about) {
  return ask(desk, question, about, 0, []);
}

// What was done isn't offered a second time; a list that is short, and may be another one then, is asked for again.
export function listEnded(desk, words) {
  if (view.shown === null || onlyAsk(words)) return;
  view.done.add(words.join(" "));
  const { question, about } = view.shown;
  if (view.last !== question || it("sheet").parentElement.id !== panelOf(question)) return;
  if (["copy", "borrower", "branches", "closed-days", "kinds", "rules"].includes(question)) ask(desk, question, about, 0, []);
  else show(view.shown);
}

export function clearLists() {
  view.asked += 1;
  Object.assign(view, { shown: null, last: null });
  it("list-paper").hidden = true;
  it("list-rows").replaceChildren();
  tell("");
}

// The day of the till is the library's, unless the clerk chose another.
export function showTillDay(day) {
  if (["", view.tillDay].includes(it("till-day").value)) it("till-day").value = day;
  view.tillDay = day;
}

// Clears what was looked up or found, also where its answer is still to come: it may be of the patron who has left. A list of the branch stays.
export function clearLookUps() {
  for (const form of lookUps()) form.reset();
  if (["patrons", "catalogue"].includes(panelOf(view.shown?.question)) || ["patrons", "catalogue"].includes(panelOf(view.last))) clearLists();
}

// `desk` gives the branch of the open desk, and how it asks.
export function listenForLists(desk) {
  listenToButtons(desk);
  const till = (question) => ask(desk(), question, it("till-day").value || desk().day, 0, []);
  for (const form of [it("counting"), it("ruling"), ...lookUps()]) {
    form.addEventListener("submit", (event) => {
      event.preventDefault();
      const { value } = event.submitter ?? form.querySelector("button");
      if (["till", "till-at"].includes(value)) till(value);
      else lookUp(desk(), form, value);
      focusScan();
    });
  }
}
