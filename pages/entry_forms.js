// The forms by which something is entered: one for each command, with a label and a hint at each field, and what is wrong at the field that it is about.

import { newKey } from "./asking.js";
import { COMMANDS, KINDS } from "./commands.js";
import { formOf, isBranch, isScanned, labelOf, partOfRefusal, problemOfField, wordsOfForm } from "./fields.js";
import { numberBy } from "./labels.js";
import { it } from "./screen.js";
import { showTab } from "./tabs.js";
import { MEANINGS, TEXTS, say } from "./texts.js";

// the forms of each panel by their commands, with what each is called
const FORMS = {
  patrons: { "patron": TEXTS.enrol, "amend-patron": TEXTS.amendPatron, "card-key": TEXTS.giveCardKey, "patron-barcode": TEXTS.patronBarcode, "charge": TEXTS.chargePatron, "waive": TEXTS.waiveOwed },
  catalogue: {
    "acquire": TEXTS.acquireCopy, "amend-title": TEXTS.amendTitle, "amend-copy": TEXTS.amendCopy, "rehome": TEXTS.rehomeCopy, "copy-barcode": TEXTS.copyBarcode,
    "drop-barcode": TEXTS.dropBarcode, "missing": TEXTS.reportMissing, "withdraw": TEXTS.withdrawCopy,
  },
  settings: {
    "close-day": TEXTS.closeDay, "open-day": TEXTS.openDay, "week": TEXTS.setWeek, "amend-branch": TEXTS.amendBranch, "branch": TEXTS.makeBranch, "kind": TEXTS.setKind, "rule": TEXTS.setRule, "grace": TEXTS.setGrace,
  },
};

const panelOfForm = (command) => Object.keys(FORMS).find((panel) => Object.hasOwn(FORMS[panel], command));

function element(name, properties, ...children) {
  const made = Object.assign(document.createElement(name), properties);
  made.append(...children);
  return made;
}

// The seven days of a week, each open or not.
function weekOf(id) {
  const boxes = TEXTS.weekdays.split(" ").map((name) => element("label", {}, element("input", { type: "checkbox", checked: true }), ` ${name}`));
  return element("span", { id, className: "week", role: "group" }, ...boxes);
}

// What a field is entered into.
function controlOf(command, part, id) {
  if (KINDS[part] === "Mask") return weekOf(id);
  if (isBranch(part) && command !== "branch") return element("select", { id });
  const isFree = ["Name", "CardKey", "Barcode"].includes(KINDS[part]);
  return element("input", { id, type: KINDS[part] === "Day" ? "date" : "text", inputMode: isFree ? "text" : KINDS[part] === "Amount" ? "decimal" : "numeric", spellcheck: false, autocomplete: "off", dir: isFree ? "auto" : "ltr" });
}

class Field {
  constructor(command, part) {
    const id = `${command}-${part}`;
    // a number that the page knows of is no label
    Object.assign(this, { part, isScanned: isScanned(command, part), known: "" });
    this.control = controlOf(command, part, id);
    this.problem = element("span", { id: `${id}-problem`, className: "problem" });
    const hint = element("span", { id: `${id}-hint`, className: "hint", textContent: formOf(part, command) });
    const label = element("label", { id: `${id}-label`, htmlFor: id, textContent: labelOf(command, part) });
    const makes = KINDS[part] === "CardKey" ? [element("button", { type: "button", textContent: TEXTS.makeKey })] : [];
    for (const button of makes) button.addEventListener("click", () => { this.value = newKey().slice(0, 12); });
    this.control.setAttribute("aria-labelledby", label.id);
    this.control.setAttribute("aria-describedby", `${this.problem.id} ${hint.id}`);
    this.place = element("div", { className: "field" }, label, this.control, ...makes, ...(isBranch(part) || KINDS[part] === "Mask" ? [] : [hint]), this.problem);
  }

  get boxes() {
    return [...this.control.querySelectorAll("input")];
  }

  get value() {
    return KINDS[this.part] === "Mask" ? this.boxes.map(({ checked }) => (checked ? "o" : "c")).join("") : this.control.value.trim();
  }

  set value(text) {
    if (KINDS[this.part] === "Mask") this.boxes.forEach((box, at) => { box.checked = (text || "ooooooo")[at] === "o"; });
    else this.control.value = text;
  }

  // Takes a number that the page knows of.
  take(text) {
    this.value = text;
    this.known = this.value;
  }

  // Takes the number of the label that was scanned into it; whether it could, and nothing else was typed meanwhile.
  async readLabel(ask) {
    const text = this.value;
    if (!this.isScanned || ["", this.known].includes(text)) return true;
    const found = await numberBy(this.part, text, ask);
    if (!found || this.value !== text) return false;
    if (found.problem === undefined) this.take(found.number);
    else {
      this.tell(found.problem);
      this.focus();
    }
    return found.problem === undefined;
  }

  // Tells what is wrong; null where nothing is.
  tell(problem) {
    this.problem.textContent = problem ?? "";
    this.control.setAttribute("aria-invalid", String(problem !== null));
  }

  focus() {
    (this.boxes[0] ?? this.control).focus();
  }

  // The branches that can be chosen, of which the one that is chosen stays.
  offer(branches, here) {
    const chosen = this.control.value || here;
    this.control.replaceChildren(...branches.map(([number, name]) => new Option(name, number, number === here, number === chosen)));
  }
}

class EntryForm {
  // `take` takes the words of the form, and `ask` sends a question.
  constructor(command, name, take, ask) {
    Object.assign(this, { command, isRead: true });
    this.fields = COMMANDS[command].map((part) => new Field(command, part));
    this.given = element("p", { className: "given" });
    const form = element("form", { noValidate: true, autocomplete: "off" }, ...this.fields.map(({ place }) => place), element("button", { textContent: name }), this.given);
    form.addEventListener("submit", async (event) => {
      event.preventDefault();
      this.forget();
      if (await this.readLabels(ask) && this.isRight()) take(this.words());
    });
    this.place = element("details", { id: `form-${command}` }, element("summary", { textContent: name }), form);
  }

  // Reads the labels that were scanned into fields; whether that is done, and isn't being done already.
  async readLabels(ask) {
    if (!this.isRead) return false;
    this.isRead = false;
    const read = [];
    for (const field of this.fields) read.push(await field.readLabel(ask));
    this.isRead = true;
    return !read.includes(false);
  }

  words() {
    return wordsOfForm(this.command, Object.fromEntries(this.fields.map(({ part, value }) => [part, value])));
  }

  // Whether each field has its form; the first one that hasn't gets the focus.
  isRight() {
    const wrong = this.fields.filter((field) => {
      const problem = problemOfField(field.part, field.value, this.command);
      field.tell(problem);
      return problem !== null;
    });
    wrong[0]?.focus();
    return wrong.length === 0;
  }

  fill(values) {
    this.forget();
    this.place.open = true;
    for (const field of this.fields) {
      if (field.part in values) field.take(String(values[field.part]));
      field.tell(null);
    }
    (this.fields.find(({ part }) => !(part in values)) ?? this.fields[0]).focus();
  }

  // Shows no card key any more.
  forget() {
    this.given.textContent = "";
  }

  clear() {
    this.forget();
    for (const field of this.fields) {
      if (!isBranch(field.part)) field.take("");
      field.tell(null);
    }
  }

  // What became of words: where they are still those of the form it is cleared once they are done, but a card key that was given stays to be read; and else the field that a refusal is
  // about tells it.
  ended(words, refusal) {
    if (words.join("\n") !== this.words().join("\n")) return;
    if (refusal === null) {
      this.clear();
      const at = COMMANDS[this.command].indexOf("card-key");
      if (at !== -1) this.given.textContent = say(TEXTS.keyGiven, { patron: words[1], key: words[at + 1] });
      return;
    }
    const part = partOfRefusal(this.command, refusal);
    this.fields.find((field) => field.part === part)?.tell(MEANINGS[refusal]);
  }
}

export class EntryForms {
  // `take` takes the words of a form that is filled in, and `ask` sends a question.
  constructor(take, ask) {
    this.forms = {};
    for (const [panel, names] of Object.entries(FORMS)) {
      for (const [command, name] of Object.entries(names)) {
        this.forms[command] = new EntryForm(command, name, take, ask);
        it(`${panel}-forms`).append(this.forms[command].place);
      }
    }
  }

  // Opens the form of a command, with what is known already.
  fill(command, values) {
    showTab(panelOfForm(command));
    this.forms[command].fill(values);
  }

  ended(words, refusal) {
    this.forms[words[0]]?.ended(words, refusal);
  }

  // Offers branches, first of all the one that is here.
  offer(branches, here) {
    for (const { fields } of Object.values(this.forms)) {
      for (const field of fields) if (field.control.tagName === "SELECT") field.offer(branches, here);
    }
  }

  clear(commands = Object.keys(this.forms)) {
    for (const command of commands) {
      this.forms[command].clear();
      this.forms[command].place.open = false;
    }
  }

  // Clears what is filled in of a patron who has left; who is being enrolled isn't there yet.
  clearPatron() {
    this.forms.patron.forget();
    this.clear(["amend-patron", "card-key", "patron-barcode", "charge", "waive"]);
  }
}
