// How a desk serves: words are sent, what they changed is asked for and told, and the patron at the desk has a page and a receipt.

import { alertsOf } from "./alerts.js";
import { knownBy } from "./asked_first.js";
import { newKey } from "./asking.js";
import { onlyAsk } from "./commands.js";
import { readCopy, readList } from "./questions.js";
import { newReceipt, receiptRow } from "./receipt.js";
import { foundBy } from "./replies.js";
import { isSpecial, said, saidFully, saidNo, shownWords, whereIs } from "./saying.js";
import { slipOf } from "./slips.js";
import { TEXTS, amount, say } from "./texts.js";

const VISIT = "circ.visit";
const UNSHELVES = ["unshelve", "unshelve-cancelled"];
const NOT_ALLOWED = 81;
const TOO_MANY = 429;
const SILENT = { told() {}, toldMore() {}, noted() {}, visit() {}, slip() {}, ended() {} };

// Whether an answer is missing that should have come: not where the desk was closed, nor what a clerk may not ask.
const isMissing = (answer) => answer !== null && answer.refusal !== NOT_ALLOWED;

export class Service {
  // `ask` sends words under a key, says a text as often as no answer comes, and gives the answer, or null once the desk is closed; `screen` shows what is told and
  // noted, the visit of a patron, and slips; `day` is the library's. It is told too how words ended: by a refusal's number, by 0 for what else
  // isn't right, and by null where they are done. A clerk who `lendsAlone` may not ask for the loans of a copy.
  constructor({ branch, ask, screen, storage, day, lendsAlone = false }) {
    Object.assign(this, { branch, ask, screen, storage, day, lendsAlone });
    // what is being served, as it is called where it doesn't succeed
    this.label = "";
    // the patron whose page came, with the page, the receipt, and until when copies stand ready
    this.visit = JSON.parse(storage.getItem(VISIT) ?? "null");
  }

  // Nothing more is shown or kept.
  end() {
    this.screen = SILENT;
    this.storage.removeItem(VISIT);
    this.storage = null;
  }

  // Forgets the patron who was there.
  forget() {
    this.visit = null;
    this.showVisit();
  }

  showVisit() {
    if (this.visit === null) this.storage?.removeItem(VISIT);
    else this.storage?.setItem(VISIT, JSON.stringify(this.visit));
    this.screen.visit(this.visit);
  }

  // Whose a barcode is: `found`, which is null where it is nobody's; or else how it ended.
  async findBarcode(barcode) {
    const words = ["find-barcode", barcode];
    const answer = await this.asked(words, newKey());
    const found = answer === null ? undefined : foundBy(answer);
    if (found !== undefined) return { found };
    return { outcome: await this.failed(words, answer?.reply ? { strange: 200 } : answer) };
  }

  // Lets a patron in whose page comes; a card that is scanned again in its turn goes on with its receipt.
  async open(patron, key, turn) {
    const words = ["page", patron];
    const answer = await this.asked(words, key);
    if (answer?.reply?.kind !== "page") return this.failed(words, answer?.reply ? { strange: 200 } : answer);
    const isAgain = this.visit?.turn === turn && this.visit.page.patron === patron;
    this.visit = isAgain ? { ...this.visit, page: answer.reply } : { page: answer.reply, turn, receipt: newReceipt(answer.reply, this.day.now, this.branch), untils: {} };
    this.showVisit();
    this.screen.told([said(answer.reply), ...alertsOf(answer.reply, this.branch, this.day.now)].join(" "));
    this.screen.noted(shownWords(words), said(answer.reply), []);
    this.lookForDay();
    await this.lookForDays();
    return "done";
  }

  // The library's day of a visit that begins. Nothing waits for it.
  async lookForDay() {
    const { receipt } = this.visit;
    await this.day.look();
    receipt.day = this.day.now;
    if (this.visit?.receipt.patron === receipt.patron) this.showVisit();
  }

  // Renews the loan that a copy is on.
  async renewCopy(number, key) {
    const words = ["copy", number];
    const answer = await this.asked(words, newKey());
    const copy = answer?.reply && readCopy(answer.text);
    if (!copy) return this.failed(words, answer?.reply ? { strange: 200 } : answer);
    if (copy.place.to !== "loan") return this.stop(say(TEXTS.notOnLoan, copy), shownWords(words));
    return this.act(["renew", copy.place.loan], key, { copy });
  }

  // What a question tells of something that is to be done; null where it tells nothing, and that is told.
  async know(words) {
    const answer = await this.asked(words, newKey());
    const copy = answer?.reply && readCopy(answer.text);
    const known = answer?.reply && knownBy(copy, answer.reply);
    if (known) return known;
    await this.failed(words, answer?.reply ? { strange: 200 } : answer);
    return null;
  }

  // The copy that stands on the hold shelf of this branch for a hold that is to leave it; none where it is another branch's.
  async lookForShelved(hold) {
    const answer = await this.asked(["shelf", this.branch, hold - 1], newKey());
    const row = answer?.reply && readList("shelf", answer.text)?.rows[0];
    return row?.hold === Number(hold) ? { shelved: row.copy } : {};
  }

  // The loan that a copy is on before it comes in: nobody else tells a clerk who lends alone whose it was.
  async lookForLoan(number) {
    const answer = await this.asked(["copy", number], newKey());
    const copy = answer?.reply && readCopy(answer.text);
    return copy?.place.to === "loan" ? { lent: copy.place } : {};
  }

  // What can be asked only before words are sent; null where nothing is, and they are sent at once.
  lookBefore([command, number]) {
    if (UNSHELVES.includes(command)) return this.lookForShelved(number);
    return command === "check-in" && this.lendsAlone ? this.lookForLoan(number) : null;
  }

  // Sends words; `found` is what was asked of them before.
  async act(words, key, found = {}) {
    const before = this.lookBefore(words);
    const known = before === null ? found : { ...found, ...await before };
    const answer = await this.asked(words, key);
    return answer?.reply ? this.done(words, answer, known) : this.failed(words, answer);
  }

  asked(words, key) {
    this.screen.told(TEXTS.sending);
    return this.ask(words.map(String), key, TEXTS.unknown);
  }

  // What accepted words changed is asked for, and told with it.
  async done(words, answer, known) {
    const { reply } = answer;
    this.screen.told(said(reply));
    if (words[0] === "begin-day") this.day.begun(words[1]);
    const more = { ...known, ...await this.look(words, reply, known) };
    this.addToReceipt(words, reply, more.page);
    const told = saidFully(words, reply, more);
    this.tellDone(words, answer, told);
    const slip = slipOf(reply, more.copy);
    if (slip) this.screen.slip(slip);
    if (more.page) await this.lookForDays();
    return more.isMissing ? this.stop(say(TEXTS.restMissing, { told }), shownWords(words)) : "done";
  }

  tellDone(words, { reply, text }, told) {
    this.screen.told(told, false, isSpecial(reply));
    this.screen.noted(shownWords(words), told, ["page", "shown"].includes(reply.kind) ? text.split("\n").slice(1) : []);
    this.screen.ended(words, null);
  }

  // A question after accepted words, of which it was told what they did.
  question(words, told) {
    return this.ask(words.map(String), newKey(), say(TEXTS.restUnknown, { told }));
  }

  // The copy that was moved, and the page of the patron at the desk: any words that do more than ask may have changed it.
  async look(words, reply, { shelved, lent }) {
    const moved = ["check-in", "missing", "withdraw", "amend-copy", "rehome", "copy-barcode"].includes(words[0]) ? words[1] : shelved;
    const copy = moved === undefined ? {} : await this.lookAtCopy(moved, said(reply));
    const ended = lent && copy.copy && copy.copy.place.loan !== lent.loan ? lent : null;
    const debtor = reply.fine > 0 || reply.price > 0 ? await this.lookForDebtor(words[1], said(reply), ended) : {};
    const page = await this.lookAtPage(words, reply);
    return { ...copy, ...debtor, ...page, isMissing: Boolean(copy.isMissing || debtor.isMissing || page.isMissing) };
  }

  // The last loan of a copy, as far as it is told.
  async lookForLast(number, told) {
    let last = {};
    for (let after = 0; after !== null;) {
      const answer = await this.question(["loans", number, after], told);
      const list = answer?.reply && readList("loans", answer.text);
      if (!list) return { isMissing: isMissing(answer) };
      last = list.rows.at(-1) ?? last;
      ({ after } = list);
    }
    return last;
  }

  // Who owes what a copy that came in or is missing cost, and how much in all: the patron of the loan that ended, where it is known, or else of its last loan.
  async lookForDebtor(number, told, ended) {
    const last = ended ?? await this.lookForLast(number, told);
    if (last.patron === undefined) return last;
    const answer = await this.question(["borrower", last.patron], told);
    return answer?.reply?.kind === "borrower" ? { debtor: answer.reply } : { isMissing: isMissing(answer) };
  }

  async lookAtPage(words, reply) {
    if (!this.visit) return {};
    const { patron } = this.visit.page;
    if (onlyAsk(words)) return reply.kind === "page" && reply.patron === patron ? { page: reply } : {};
    const answer = await this.question(["page", patron], said(reply));
    return answer?.reply?.kind === "page" ? { page: answer.reply } : { isMissing: answer !== null };
  }

  async lookAtCopy(number, told) {
    const answer = await this.question(["copy", number], told);
    const copy = answer?.reply && readCopy(answer.text);
    return copy ? { copy } : { isMissing: answer !== null };
  }

  // Until when copies stand ready for the patron: the page tells no day, and the hold shelf has one for each hold, which stays.
  async lookForDays() {
    const { page, untils } = this.visit;
    const unknown = page.holds.filter(({ state, hold }) => state === "ready" && !(hold in untils));
    if (unknown.length === 0) return;
    for (const { hold, branch } of unknown) {
      const answer = await this.question(["shelf", branch, hold - 1], said(page));
      const row = answer?.reply && readList("shelf", answer.text)?.rows[0];
      if (row?.hold === hold) untils[hold] = row.until;
    }
    if (this.visit.page === page) this.showVisit();
  }

  addToReceipt(words, reply, page) {
    if (!this.visit) return;
    if (page) Object.assign(this.visit, { page, receipt: Object.assign(this.visit.receipt, { name: page.name }) });
    const row = receiptRow(this.visit.page.patron, words, reply, page);
    if (row) this.visit.receipt.rows.push(row);
    if (page || row) this.showVisit();
  }

  // How an item ended that has no reply: it can be sent again under its key where it isn't known whether it was done, or where there were too many requests at once.
  async failed(words, answer) {
    if (!answer) return "stop";
    const problem = this.problemOf(words, answer);
    this.stop(problem, shownWords(words));
    this.screen.ended(words, answer.refusal ?? 0);
    if (answer.refusal) await this.tellWhere({ "check-out": words[2], "check-in": words[1] }[words[0]], problem);
    return answer.fault || answer.strange || answer.status === TOO_MANY ? "again" : "stop";
  }

  // What an answer that is no reply says of words; of an amount above what the patron at the desk owes, with what that is.
  problemOf(words, answer) {
    const page = this.visit?.page;
    const isAbove = answer.refusal === 60 && page?.patron === Number(words[1]) && Number(words[2]) > page.owed;
    return isAbove ? say(TEXTS.moreThanOwed, { owed: amount(page.owed) }) : saidNo(answer, words);
  }

  // Tells which title a refused copy is of, where it is and for whom.
  async tellWhere(number, problem) {
    if (number === undefined) return;
    const { copy } = await this.lookAtCopy(number, this.labelled(problem));
    if (copy) this.screen.toldMore(this.labelled(say(TEXTS.refusedCopy, { problem, text: copy.text, place: whereIs(copy.place) })));
  }

  labelled(problem) {
    return this.label === "" ? problem : say(TEXTS.ofLabel, { label: this.label, told: problem });
  }

  stop(problem, what) {
    this.screen.told(this.labelled(problem), true);
    this.screen.noted(what, problem, []);
    return "stop";
  }
}
