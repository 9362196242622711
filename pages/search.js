// Searching as one types: after a pause, the last answer only, and further parts where they are asked for.

import { readList } from "./questions.js";

const PAUSE = 250;

// What is searched for where a number is wanted and letters are typed: patrons, titles, or null for nothing.
export function searchedBy(wanted, { of, number }) {
  const question = { patron: "find-patrons", title: "find-titles" }[wanted];
  const isText = of === null && /\p{L}.*\p{L}/u.test(number);
  return question !== undefined && isText ? question : null;
}

// What was found: rows, from where to ask on, and what is told in their place; of a search that is under way `text` alone.
const NOTHING = { question: null, text: "", rows: [], after: null, answer: null };

export class Search {
  // `ask` sends words until they are answered or the signal ends it, and `shown` shows what was found so far.
  constructor(ask, shown, pause = PAUSE) {
    Object.assign(this, { ask, shown, pause, found: NOTHING, timer: null, leaving: null });
  }

  // Searches once nothing more is typed for a while; by null it ends.
  type(question, text) {
    this.end();
    if (question !== null) this.timer = setTimeout(() => this.part({ ...NOTHING, question, text }), this.pause);
  }

  // Searches at once.
  now(question, text) {
    this.end();
    return this.part({ ...NOTHING, question, text });
  }

  // Asks for the part that follows what was found.
  more() {
    return this.part(this.found);
  }

  async part({ question, text, rows, after }) {
    const mine = new AbortController();
    this.leaving?.abort();
    this.leaving = mine;
    const answer = await this.ask([question, after ?? 0, text], mine.signal);
    if (!answer || mine.signal.aborted) return;
    const list = answer.reply && readList(question, answer.text);
    this.found = { question, text, rows: [...rows, ...(list ? list.rows : [])], after: list ? list.after : null, answer: list ? null : answer };
    this.shown(this.found, rows.length);
  }

  // Nothing is searched for any more, nor shown.
  end() {
    clearTimeout(this.timer);
    this.leaving?.abort();
    if (this.found === NOTHING) return;
    this.found = NOTHING;
    this.shown(NOTHING, 0);
  }
}
