// What a desk does with what was taken: one item after another, each by its requests.

import { askedOf, isAskedFirst, questionFirst } from "./asked_first.js";
import { newKey } from "./asking.js";
import { isBarcode, onlyAsk } from "./commands.js";
import { Queue } from "./queue.js";
import { confirmingOf, labelOf, shownWords, withoutCardKey } from "./saying.js";
import { cut, isConfirming, itemFound, itemOf, nameOf, needsConfirming, needsPatron, wanted, wordsOfItem } from "./scans.js";
import { searchedBy } from "./search.js";
import { Service } from "./service.js";
import { TEXTS, say } from "./texts.js";
import { Turn } from "./turn.js";

const onlyAsks = (item) => item.kind === "patron" || (item.kind === "words" && onlyAsk(item.words));
// What is asked about first is looked up anew wherever it is handled, and no name of it is kept.
const keptForm = ({ asked, ...item }) => (item.kind === "words" ? { ...item, words: withoutCardKey(item.words) } : item);

// The patron for whom an item was scanned; null where it is nobody's, or words.
const patronOfItem = (item) => (item?.kind === "patron" ? item.number : item?.patron ?? null);

export class Work {
  // `screen` shows what waits and what is wanted next, and what the service has to show; `kept` has all that waits, each time.
  constructor({ branch, ask, screen, storage, day, lendsAlone, kept }) {
    Object.assign(this, { branch, screen });
    this.turn = new Turn(storage);
    this.service = new Service({ branch, ask, screen: this.screenOfTurn(), storage, day, lendsAlone });
    this.queue = new Queue((item) => this.handle(item), () => this.changed(), { storage, form: keptForm, kept });
  }

  // Whether what is sent is of a patron whose turn is over.
  get isOver() {
    const { current } = this.queue;
    return patronOfItem(current) !== null && current.turn !== this.turn.key;
  }

  // Whether a visit is that of the patron whose turn it is.
  isHere(visit) {
    return visit !== null && visit.turn === this.turn.key && visit.page.patron === this.expected;
  }

  // What is served is shown while it is its patron's turn: of whoever has left only what isn't right is told.
  screenOfTurn() {
    const { screen } = this;
    return {
      ...screen,
      told: (text, isWrong = false, isSpecial = false) => (isWrong || isSpecial || !this.isOver) && screen.told(text, isWrong, isSpecial),
      noted: (...what) => this.isOver || screen.noted(...what),
      visit: (visit) => {
        const shown = this.isHere(visit) ? visit : null;
        screen.visit(shown);
        screen.wanted(this.expected, shown && shown.page.name);
      },
    };
  }

  // Nothing is kept of a patron whose turn is over, once nothing more of that patron is sent.
  forgetFormer(item) {
    const { visit } = this.service;
    if (visit !== null && !this.isHere(visit) && (item?.turn ?? null) !== visit.turn) this.service.forget();
  }

  changed() {
    if (this.queue.isEmpty) this.forgetFormer(null);
    this.screen.waiting(this.queue);
  }

  // The patron for whom scans are taken; where it isn't known yet whose the card is that was scanned, what was scanned.
  get expected() {
    return this.turn.patron;
  }

  // A copy that comes in is nobody's at the desk; the other modes go on with the patron.
  choose(mode) {
    this.turn.change({ mode });
    if (mode === "check-in") this.nextPatron();
    else this.showTurn();
  }

  // Takes a scan at once, for the patron whose scans are taken. Whose barcode it is is asked in its turn; until then it counts as what its prefix says, or else what is wanted.
  scan(mode, text) {
    this.takeScan({ ...itemOf(mode, this.expected, text), isAsked: isBarcode(text) });
  }

  // Takes the number of what was chosen: it is no barcode.
  pick(mode, number) {
    this.takeScan(itemOf(mode, this.expected, String(number), { of: null, number: String(number) }));
  }

  // What may be a card begins with its patron where nobody is there yet.
  takeScan(item) {
    const isBegin = this.expected === null && (item.kind === "patron" || (item.isAsked && needsPatron(item.mode)));
    if (isBegin) this.turn.change({ patron: item.number ?? item.text });
    this.take({ ...item, isBegin, turn: this.turn.key });
  }

  words(words) {
    this.take({ kind: "words", words });
  }

  // Takes words of a button or a form, which are asked about first where they can't be undone; `about` is what is known of them.
  press(words, about = {}) {
    this.take({ kind: "words", words, ...(isAskedFirst(words) ? { about } : {}) });
  }

  take(item) {
    this.queue.add({ ...item, key: newKey() });
    this.showTurn();
  }

  // Shows whose turn it is, and what is wanted next.
  showTurn() {
    this.service.showVisit();
  }

  // Ends the turn of a patron, of whom nothing stays on the screen but what stopped the queue, where something waits or the clerk can't have seen it yet.
  nextPatron() {
    this.turn.next();
    if (this.queue.isEmpty && this.queue.isSeen()) this.queue.sendOn();
    this.showTurn();
    this.screen.nobody();
    if (!this.queue.isStopped) this.screen.told("");
    this.queue.show();
  }

  // Leaves the desk to another clerk: what waits stays kept for this one; whether anything does.
  leave() {
    const isKept = this.queue.leave();
    this.service.end();
    this.turn.end();
    return isKept;
  }

  // Closes the desk: what may have been done then, and what was not sent.
  end() {
    const { current, held, waiting } = this.queue;
    this.queue.end();
    this.service.end();
    this.turn.end();
    const taken = [held, current].filter((item) => item !== null && !onlyAsks(item));
    const isUnsent = (item) => Boolean(item.isAsked) || needsConfirming(item);
    const [unsent, unknown] = [true, false].map((is) => taken.filter((item) => isUnsent(item) === is));
    return { unknown: unknown.map(labelOf), unsent: [...unsent, ...waiting].map(labelOf) };
  }

  async handle(item) {
    this.forgetFormer(item);
    if (item.kind === "words") return this.handleWords(item);
    this.service.label = labelOf(item);
    const asked = item.isAsked ? await this.findBarcode(item) : "done";
    const outcome = asked === "done" ? await this.handleScan(item) : asked;
    if (outcome === "stop" && item.isBegin) this.noCard(item);
    return outcome;
  }

  handleWords(item) {
    this.service.label = "";
    return needsConfirming(item) ? this.confirm(item) : this.sendWords(item);
  }

  // Asks whose barcode a scan is, which counts as that from then on.
  async findBarcode(item) {
    const { found, outcome = "done" } = await this.service.findBarcode(item.text);
    if (outcome !== "done") return outcome;
    Object.assign(item, { problem: undefined }, itemFound(item.mode, item.patron, item.text, found), { isAsked: false });
    this.service.label = labelOf(item);
    this.queue.keep();
    return "done";
  }

  async handleScan(item) {
    if (item.kind === "wrong") return this.wrong(item);
    if (needsConfirming(item)) return this.confirm(item);
    if (item.kind === "patron") return this.openCard(item);
    if (typeof item.patron === "string") return this.service.stop(say(TEXTS.otherScanned, { is: nameOf(item.kind), wanted: nameOf("patron") }), item.text);
    if (item.patron !== null && this.service.visit?.page.patron !== item.patron) {
      const outcome = await this.open(item.patron, newKey(), item.turn);
      if (outcome !== "done") return outcome;
    }
    if (item.mode === "renew") return this.service.renewCopy(item.number, item.key);
    return this.service.act(wordsOfItem(item, this.branch), item.key);
  }

  // Letters that are no barcode are searched for, where nothing was scanned after them and the line is free.
  wrong(item) {
    const question = searchedBy(wanted(item.mode, item.patron), cut(item.text));
    const isSought = question !== null && this.queue.waiting.length === 0 && this.turn.key === item.turn;
    if (item.isBegin) this.noCard(item);
    if (!isSought || !this.screen.sought(item.text)) return this.service.stop(item.problem, item.text);
    this.screen.told("");
    return "done";
  }

  // Scans are taken for nobody in the turn of what was to be a card.
  noCard({ turn }) {
    if (turn !== this.turn.key) return;
    this.turn.change({ patron: null });
    this.showTurn();
  }

  // Begins with a patron: what was scanned later in the turn is for this patron, and nothing of another one who was there stays on the screen.
  openCard({ number, key, turn }) {
    for (const item of this.queue.waiting) if (item.turn === turn && item.patron !== null) item.patron = number;
    if (turn === this.turn.key && this.expected !== number) {
      const isOther = this.isHere(this.service.visit);
      this.turn.change({ patron: number });
      this.showTurn();
      if (isOther) this.screen.nobody();
    }
    this.queue.show();
    return this.open(number, key, turn);
  }

  // A patron who isn't let in isn't the one for whom scans are taken, unless the same is asked again.
  async open(patron, key, turn) {
    const outcome = await this.service.open(patron, key, turn);
    if (outcome === "stop" && this.expected === patron) this.noCard({ turn });
    return outcome;
  }

  // Goes on by the clerk's word, who has read what stopped the queue.
  sendOn() {
    this.passOver([this.queue.held]);
    this.screen.told("");
    this.queue.sendOn();
  }

  // Scans are taken for nobody where the card that they were to be taken for is passed over before it is known whose it is.
  passOver(items) {
    for (const item of items) if (item?.isAsked && item.isBegin) this.noCard(item);
  }

  throwAway() {
    this.passOver([this.queue.held, ...this.queue.waiting]);
    this.screen.told("");
    this.queue.throwAway();
  }

  // What is asked about first is looked up then: what isn't there is told, and not asked about.
  async confirm(item) {
    if (item.about !== undefined) {
      const question = questionFirst(item.words, item.about);
      const known = question === null ? {} : await this.service.know(question);
      if (known === null) return "told";
      const asked = askedOf(item.words, { ...item.about, ...known });
      if (asked === null) return this.sendWords(Object.assign(item, { isConfirmed: true }));
      item.asked = asked;
    }
    const page = this.service.visit?.page;
    this.screen.told(confirmingOf(item, page?.patron === item.patron ? page?.name : undefined).asked, true);
    return "again";
  }

  // Sends the item that stopped the queue again; where it has to be confirmed first, by what the clerk typed.
  sendAgain(typed) {
    const { held } = this.queue;
    if (held === null || isConfirming(held, typed)) return this.queue.sendAgain();
    this.confirm(held);
    return this.queue.show();
  }

  // Whoever types words looks at what is told of them: a refusal stops only what waits.
  async sendWords({ words, key }) {
    const outcome = words.includes("") ? this.service.stop(TEXTS.cardKeyNotKept, shownWords(words)) : await this.service.act(words, key);
    return outcome === "stop" ? "told" : outcome;
  }
}
