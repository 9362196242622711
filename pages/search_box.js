// The list below the line for scans of what is found by the letters that stand in it: the arrow keys go through it, and Enter takes what is chosen.

import { plain, write } from "./isolating.js";
import { isBarcode } from "./commands.js";
import { saidNo } from "./saying.js";
import { cut } from "./scans.js";
import { it } from "./screen.js";
import { Search, searchedBy } from "./search.js";
import { speak } from "./voice.js";
import { TEXTS, amount, say } from "./texts.js";

const nameOf = (row) => (row.patron === undefined ? say(TEXTS.foundTitle, row) : say(TEXTS.patronHead, { ...row, owed: amount(row.owed) }));

// What is told of what was found.
function told({ question, text, rows, after, answer }) {
  if (question === null) return "";
  if (answer) return saidNo(answer.reply ? { strange: 200 } : answer, [question]);
  if (rows.length > 0) return say(TEXTS.foundSome, { count: rows.length });
  return after === null ? say(TEXTS.foundNone, { sought: text }) : TEXTS.noneYet;
}

function optionOf(text, place) {
  const made = write(document.createElement("li"), text);
  made.id = `found-${place}`;
  made.role = "option";
  made.ariaSelected = "false";
  return made;
}

export class SearchBox {
  // `ask` asks the desk, `wanted` says what is wanted of the line, and `take` takes the number that was chosen.
  constructor({ ask, wanted, take }) {
    Object.assign(this, { wanted, take, place: -1, search: new Search(ask, (found, begin) => this.show(found, begin)) });
    it("scan").addEventListener("input", () => this.typed());
    it("scan").addEventListener("keydown", (event) => this.moved(event));
    it("scan").addEventListener("blur", () => this.search.end());
    // the line keeps the focus while something is chosen by a mouse
    it("found").addEventListener("pointerdown", (event) => event.preventDefault());
    it("found").addEventListener("click", (event) => this.choose(event.target.closest("[role=option]")));
  }

  get options() {
    return [...it("found").children];
  }

  questionOf(text) {
    return searchedBy(this.wanted(), cut(text.trim()));
  }

  typed() {
    const text = it("scan").value;
    this.search.type(this.questionOf(text), text.trim());
  }

  end() {
    this.search.end();
  }

  show(found, begin) {
    const more = found.after === null ? [] : [optionOf(TEXTS.more, found.rows.length)];
    it("found").replaceChildren(...found.rows.map((row, place) => optionOf(nameOf(row), place)), ...more);
    it("found").hidden = this.options.length === 0;
    it("scan").ariaExpanded = String(this.options.length > 0);
    write(it("found-told"), told(found));
    if (found.question !== null) speak(plain(told(found)));
    this.goTo(begin > 0 || this.options.length === 1 ? begin : -1);
  }

  // The option at a place is the one that Enter takes; none is at -1.
  goTo(place) {
    this.options[this.place]?.setAttribute("aria-selected", "false");
    this.place = place < this.options.length ? place : -1;
    const option = this.options[this.place];
    option?.setAttribute("aria-selected", "true");
    option?.scrollIntoView({ block: "nearest" });
    if (option) it("scan").setAttribute("aria-activedescendant", option.id);
    else it("scan").removeAttribute("aria-activedescendant");
  }

  moved(event) {
    const { length } = this.options;
    if (length === 0 || !["ArrowDown", "ArrowUp", "Escape"].includes(event.key)) return;
    event.preventDefault();
    if (event.key === "Escape") this.search.end();
    else if (event.key === "ArrowDown") this.goTo((this.place + 1) % length);
    else this.goTo((Math.max(this.place, 0) + length - 1) % length);
  }

  choose(option) {
    const place = this.options.indexOf(option);
    const row = this.search.found.rows[place];
    if (place === -1) return;
    if (!row) {
      this.search.more();
      return;
    }
    it("scan").value = "";
    this.search.end();
    this.take(row.patron ?? row.title);
  }

  // Whether the end of a scan is one of a search: it takes what is chosen, or else searches at once, and what is typed next takes the place of the letters. What may be a barcode is
  // a scan first, unless somebody waited until something was found by it.
  enter(text) {
    if (this.place !== -1) {
      this.choose(this.options[this.place]);
      return true;
    }
    const isFound = this.search.found.text === text.trim();
    const question = this.questionOf(text);
    if (question === null || (isBarcode(text.trim()) && !isFound)) {
      this.search.end();
      return false;
    }
    if (!isFound) this.search.now(question, text.trim());
    it("scan").select();
    return true;
  }

  // Searches for letters that were a scan first; whether the line was free for them.
  seek(text) {
    const question = this.questionOf(text);
    if (it("scan").value !== "" || question === null) return false;
    it("scan").value = text;
    this.search.now(question, text);
    it("scan").select();
    return true;
  }
}
