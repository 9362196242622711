// What the desk's page shows.

import { buttonsOf, renew } from "./action_buttons.js";
import { alertsOf, isLate } from "./alerts.js";
import { today } from "./days.js";
import { write } from "./isolating.js";
import { receiptEnd, receiptHead } from "./receipt.js";
import { actionsOfHold, actionsOfLoan, actionsOfPatron } from "./row_actions.js";
import { confirmingOf, holdLine, labelOf, loanLine } from "./saying.js";
import { slipLines } from "./slips.js";
import { soundAlarm, soundChime } from "./sound.js";
import { TEXTS, TOWN, amount, branchName, say } from "./texts.js";
import { beginsOtherDay, needsConfirming, wanted } from "./scans.js";
import { plain } from "./isolating.js";
import { Ends, speak } from "./voice.js";

export const MOST_NOTES = 20;
export const it = (id) => document.getElementById(id);

export function mode() {
  return document.querySelector("input[name=mode]:checked").value;
}

export function showOpen(isOpen) {
  it("sign-in").hidden = isOpen;
  it("scanning").hidden = !isOpen;
  it("desk").hidden = !isOpen;
  it("sign-out").hidden = !isOpen;
}

export function showMode(value) {
  document.querySelector(`input[name=mode][value=${value}]`).checked = true;
}

const ends = new Ends();

// Tells the clerk, aloud and with a sound where it is wrong.
export function tell(text, isWrong = false) {
  showTold(text, isWrong);
  if (text !== "" && text !== TEXTS.sending) speak(plain(text), isWrong);
}

// Shows what is told of what is served; what is wrong has a sound, and so has what is special about a copy that came in. It is spoken once it has ended.
export function showTold(text, isWrong = false, isSpecial = false) {
  tellQuietly(text, isWrong, isSpecial);
  if (isWrong) soundAlarm();
  else if (isSpecial) soundChime();
}

function speakOfEnded(served) {
  const { innerText, classList } = it("told");
  if (ends.hasEnded(served) && innerText !== "") speak(innerText, classList.contains("wrong") || classList.contains("special"));
}

export function tellQuietly(text, isWrong, isSpecial = false) {
  write(it("told"), text);
  it("told").classList.toggle("wrong", isWrong);
  it("told").classList.toggle("special", isSpecial && !isWrong);
}

function line(text) {
  const made = document.createElement("li");
  made.append(write(document.createElement("span"), text));
  return made;
}

// Notes what was sent, with what was told and the lines that follow it, above what was noted before.
export function note(what, text, lines) {
  it("last").prepend(line(`${what}: ${text}`), ...lines.map(line));
  while (it("last").children.length > MOST_NOTES) it("last").lastElementChild.remove();
}

export function clearNotes() {
  it("last").replaceChildren();
}

// Shows where the desk is, and the library's day, loudly where it isn't that of this machine; nothing where the desk is closed.
export function showHead(branch, day) {
  const isOther = branch !== null && day !== null && day !== today();
  const other = isOther ? say(TEXTS.otherDay, { day, today: today() }) : "";
  if (other !== "" && other !== it("other-day").textContent) speak(other);
  it("place").textContent = branch === null ? "" : say(TEXTS.deskHead, { town: TOWN, branch: branchName(branch), day: day ?? TEXTS.noDay });
  it("place").classList.toggle("other-day", isOther);
  it("other-day").textContent = other;
}

// Shows by what the item that stopped the queue is sent again: by a button, and where it begins another day by a typed yes too. Gives what the button says that goes on without it.
function showConfirming(held) {
  const isAsked = held !== null && needsConfirming(held);
  it("confirming").hidden = held === null;
  it("typing").hidden = !isAsked || !beginsOtherDay(held);
  if (it("typing").hidden) it("typed").value = "";
  it("again").textContent = isAsked ? confirmingOf(held).yes : TEXTS.sendAgain;
  return isAsked ? confirmingOf(held).no : TEXTS.goOn;
}

// Shows what is sent and what waits, and what the clerk can do where the queue stands still.
export function showWaiting(queue) {
  speakOfEnded(queue.current);
  const shown = [...(queue.current ? [say(TEXTS.isSent, { what: labelOf(queue.current) })] : []), ...queue.waiting.map(labelOf)];
  const waits = queue.waiting.length > 0;
  it("waiting").replaceChildren(...shown.map(line));
  it("queue").hidden = !waits && !queue.isStopped;
  it("stopped").hidden = !queue.isStopped;
  const without = showConfirming(queue.held);
  it("send-on").textContent = waits ? TEXTS.sendOn : without;
  it("throw-away").hidden = !waits;
}

// The loans and holds of a patron, each with what can be done with it; what is overdue or ready stands out.
function linesOf({ page, untils, receipt: { day } }, act) {
  const lineOf = (text, row, actions, look) => {
    const made = line(text);
    made.firstChild.className = look;
    made.append(...buttonsOf(actions, row.text, act));
    return made;
  };
  const loans = page.loans.map((loan) => lineOf(loanLine(loan), loan, actionsOfLoan(loan), isLate(loan, day) ? "late" : ""));
  return [...loans, ...page.holds.map((hold) => lineOf(holdLine(hold, untils), hold, actionsOfHold(hold, page), hold.state === "ready" ? "ready" : ""))];
}

// Shows the patron at the desk and the receipt, null where nobody was there yet; `act` does what is pressed.
export function showVisit(visit, act) {
  const owed = visit && amount(visit.page.owed);
  it("patron").hidden = visit === null;
  write(it("patron-head"), visit ? say(TEXTS.patronHead, { ...visit.page, owed }) : "");
  it("patron-alerts").textContent = visit ? alertsOf(visit.page, visit.receipt.branch, visit.receipt.day).join(" ") : "";
  renew(it("patron-lines"), visit ? linesOf(visit, act) : []);
  renew(it("patron-actions"), visit ? buttonsOf(actionsOfPatron(visit.page), visit.page.name, act) : []);
  it("visit").hidden = visit === null;
  write(it("receipt-head"), visit ? receiptHead(visit.receipt) : "");
  it("receipt").replaceChildren(...(visit?.receipt.rows ?? []).map(line));
  it("receipt-town").textContent = visit ? TOWN : "";
  it("receipt-owed").textContent = visit ? receiptEnd(visit.page) : "";
}

// Adds a slip to those that are to be printed; each can be printed by itself, also a second time.
export function showSlip(slip) {
  const made = document.createElement("article");
  made.append(...slipLines(slip).map((text) => write(document.createElement("p"), text)));
  const button = document.createElement("button");
  button.type = "button";
  button.textContent = TEXTS.printSlip;
  button.addEventListener("click", () => {
    for (const other of it("slip-list").children) other.classList.toggle("alone", other === made);
    print("slip");
  });
  made.append(button);
  it("slip-list").append(made);
  it("slips").hidden = false;
}

export function putSlipsAway() {
  it("slip-list").replaceChildren();
  it("slips").hidden = true;
}

// Prints one part of the page alone.
export function print(part) {
  document.body.dataset.print = part;
  window.print();
}

// Shows what is wanted next, and for whom: by the name once the page has come.
export function showWanted(patron, name) {
  const asked = {
    patron: TEXTS.askPatron,
    copy: { "check-in": TEXTS.askCopyIn, "renew": TEXTS.askRenewed }[mode()] ?? TEXTS.askCopy,
    amount: TEXTS.askAmount,
    title: TEXTS.askTitle,
  }[wanted(mode(), patron)];
  write(it("asked"), say(asked, { whose: say(name === null ? TEXTS.askedOf : TEXTS.askedOfName, { patron, name }) }));
  it("scan").inputMode = wanted(mode(), patron) === "amount" ? "decimal" : "text";
  it("next").hidden = patron === null;
}
