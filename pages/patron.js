// A patron's page: what is lent, what is on hold, what is owed; renewing, holds and cancelling.

import { numberOfBranch } from "./branches.js";
import { once } from "./clicks.js";
import { holdBody, isKey, isNumber } from "./commands.js";
import { daysBetween, today } from "./days.js";
import { calendarOf } from "./due_days.js";
import { Idle } from "./idle.js";
import { marked, plain, write } from "./isolating.js";
import { saveFile } from "./saving.js";
import { renewalsLeft, saidNo, stateOf } from "./saying.js";
import { ownNumber } from "./scans.js";
import { SignedIn } from "./signed_in.js";
import { BRANCHES, IDLE_MINUTES, TEXTS, amount, fillIn, say } from "./texts.js";
import { silence, speak } from "./voice.js";

const it = (id) => document.getElementById(id);
// who is signed in, if anybody is, and whose loans are shown
const here = { patron: null, loans: [] };

// Tells, and speaks what isn't told already.
function tell(text, isWrong = false) {
  if (![TEXTS.sending, "", it("told").textContent].includes(plain(text))) speak(plain(text), isWrong);
  write(it("told"), text);
  it("told").classList.toggle("wrong", isWrong);
}

function tellUnknown() {
  tell(TEXTS.unknown, true);
}

const actOnce = once((_, path) => act(path));

function item(lines, action) {
  const made = document.createElement("li");
  for (const [text, name] of lines) {
    const line = write(document.createElement("span"), text);
    if (name) line.className = name;
    made.append(line);
  }
  if (action) {
    const button = document.createElement("button");
    button.type = "button";
    button.dataset.path = action.path;
    button.textContent = action.text;
    button.setAttribute("aria-label", plain(action.label));
    button.addEventListener("click", (event) => actOnce(event, action.path));
    made.append(button);
  }
  return made;
}

function left(loan) {
  const days = daysBetween(today(), loan.due);
  if (days < 0) return [say(TEXTS.late, loan), "late"];
  if (days === 0) return [TEXTS.dueToday, "soon"];
  return [days === 1 ? TEXTS.oneDayLeft : say(TEXTS.daysLeft, { days }), days < 3 ? "soon" : null];
}

function loanItem(loan) {
  return item([[marked(loan.text), "title"], [loan.due, null], left(loan), [renewalsLeft(loan), null]],
    loan.renewals > 0 ? { text: TEXTS.renew, label: say(TEXTS.renewOf, loan), path: `/loans/${loan.loan}/renew` } : null);
}

function holdItem(hold) {
  return item([[marked(hold.text), "title"], [stateOf(hold), hold.state]],
    hold.state === "waiting" ? { text: TEXTS.cancel, label: say(TEXTS.cancelOf, hold), path: `/holds/${hold.hold}/cancel` } : null);
}

function none(text) {
  return item([[text, null]]);
}

// Keeps the focus where it was: on the button that does the same, or else on the head of its list.
function keepFocus(path, list) {
  const same = document.querySelector(`[data-path="${path}"]`);
  (same ?? it(`${list}-head`)).focus();
}

function show(page) {
  const { dataset, parentElement } = document.activeElement;
  const [path, list] = [dataset.path, parentElement?.closest("ul")?.id];
  here.loans = page.loans;
  write(it("name"), marked(page.name));
  it("owed").textContent = page.owed === 0 ? TEXTS.owesNothing : say(TEXTS.owes, { owed: amount(page.owed) });
  it("owed").className = page.owed === 0 ? "" : "late";
  it("loans").replaceChildren(...(page.loans.length ? page.loans.map(loanItem) : [none(TEXTS.noLoans)]));
  it("holds").replaceChildren(...(page.holds.length ? page.holds.map(holdItem) : [none(TEXTS.noHolds)]));
  it("renew-all").hidden = renewable().length < 2;
  it("save-days").hidden = here.loans.length === 0;
  it("sign-in").hidden = true;
  it("page").hidden = false;
  if (path !== undefined) keepFocus(path, list);
}

const renewable = () => here.loans.filter(({ renewals }) => renewals > 0);

// The title that the address asks to hold, as #hold=100, is filled in.
function fillHold() {
  const title = /^#hold=(.*)$/.exec(location.hash)?.[1] ?? "";
  if (!isNumber(title) || it("page").hidden) return;
  it("title").value = title;
  it("branch").focus();
}

// The address asks for no title any more.
function forgetHold() {
  history.replaceState(null, "", location.pathname);
}

// Shows the page that a signed-in patron is answered; whether it came.
async function look(mine) {
  const answer = await mine.look();
  if (!answer || mine !== here.patron) return false;
  if (answer.reply?.kind !== "page") {
    tell(saidNo(answer.reply ? { strange: 200 } : answer), true);
    return false;
  }
  show(answer.reply);
  return true;
}

function said(reply) {
  if (reply.kind === "lent") return say(TEXTS.lent, reply);
  if (reply.kind === "held") return say(TEXTS.heldNow, reply);
  return TEXTS.done;
}

// Tells what was answered, and shows the page as it is then; whether it was done.
async function finish(mine, answering) {
  const answer = await answering;
  if (!answer || mine !== here.patron) return false;
  const text = answer.reply ? said(answer.reply) : saidNo(answer);
  tell(text, !answer.reply);
  if (await look(mine)) tell(text, !answer.reply);
  return Boolean(answer.reply);
}

// Renews what can be renewed, one after another, and tells how many were and why others weren't.
async function renewAll() {
  const mine = here.patron;
  const all = renewable();
  const problems = [];
  if (mine.door.isBusy) return;
  tell(TEXTS.sending);
  for (const loan of all) {
    const answer = await mine.act(`/loans/${loan.loan}/renew`);
    if (!answer || mine !== here.patron) return;
    if (!answer.reply) problems.push(say(TEXTS.ofTitle, { text: loan.text, told: saidNo(answer) }));
  }
  const text = [say(TEXTS.renewedSome, { count: all.length - problems.length, all: all.length }), ...problems].join(" ");
  if (await look(mine)) tell(text, problems.length > 0);
  if (it("renew-all").hidden && mine === here.patron) it("loans-head").focus();
}

async function act(path, body) {
  const mine = here.patron;
  if (mine.door.isBusy) return false;
  tell(TEXTS.sending);
  return finish(mine, mine.act(path, body));
}

it("sign-in").addEventListener("submit", async (event) => {
  event.preventDefault();
  const { number, problem } = ownNumber(it("number").value.trim());
  const key = it("card-key").value.trim();
  if (problem) return tell(problem, true);
  if (!isKey(key)) return tell(say(TEXTS.wrongForm, { what: TEXTS.cardKeyForm }), true);
  it("card-key").value = "";
  here.patron?.signOut();
  const mine = new SignedIn({ number, key }, () => mine === here.patron && tellUnknown());
  here.patron = mine;
  idle.renew();
  tell(TEXTS.sending);
  const isShown = await look(mine);
  if (mine !== here.patron) return;
  if (isShown) {
    tell("");
    it("name").focus();
    fillHold();
  } else {
    idle.end();
    here.patron.signOut();
    here.patron = null;
  }
});

// The fields are emptied once the hold is placed, unless something else was typed meanwhile.
it("place").addEventListener("submit", async (event) => {
  event.preventDefault();
  const [title, place, day] = ["title", "branch", "from"].map((id) => it(id).value.trim());
  const branch = numberOfBranch(place, BRANCHES);
  if (!isNumber(title)) return tell(say(TEXTS.wrongForm, { what: TEXTS.numberForm }), true);
  if (branch === null) return tell(say(TEXTS.wrongForm, { what: TEXTS.branchForm }), true);
  const isDone = await act("/holds", holdBody(title, branch, day));
  if (!isDone || it("title").value.trim() !== title) return;
  it("title").value = "";
  it("from").value = "";
  forgetHold();
});

it("renew-all").addEventListener("click", once(renewAll));
it("save-days").addEventListener("click", () => saveFile(`${today()}.ics`, "text/calendar", calendarOf(here.loans)));
window.addEventListener("hashchange", fillHold);

// Leaves nothing of the patron, and tells.
function signOut(told) {
  idle.end();
  const wasBusy = here.patron.signOut();
  here.patron = null;
  here.loans = [];
  forgetHold();
  it("page").hidden = true;
  it("sign-in").hidden = false;
  for (const id of ["name", "owed", "loans", "holds"]) it(id).replaceChildren();
  for (const form of document.forms) form.reset();
  silence();
  tell(wasBusy ? TEXTS.signedOutUnknown : told, wasBusy);
  it("number").focus();
}

it("sign-out").addEventListener("click", () => signOut(TEXTS.signedOut));
const idle = new Idle(() => signOut(say(TEXTS.signedOutIdle, { minutes: IDLE_MINUTES })));

fillIn();

it("branches").append(...Object.values(BRANCHES).map((name) => new Option(name)));

// What was on its way when the tab was loaded anew comes first.
here.patron = SignedIn.before(tellUnknown);
if (here.patron) {
  const before = here.patron.actBefore();
  if (before) finish(here.patron, before);
  else look(here.patron).then(fillHold);
  idle.begin();
}
