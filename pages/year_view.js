// The calendar of a branch for a year: a day that is to come is closed, or opened again, by a press.

import { readList } from "./questions.js";
import { it } from "./screen.js";
import { TEXTS, branchName, say } from "./texts.js";
import { monthsFrom, weeksOf } from "./year.js";

function element(name, properties, ...children) {
  const made = Object.assign(document.createElement(name), properties);
  made.append(...children);
  return made;
}

export class YearView {
  // `desk` gives how the open desk asks, its day, and how it does what is pressed.
  constructor(desk) {
    Object.assign(this, { desk, branch: null });
    it("year-of").addEventListener("submit", (event) => {
      event.preventDefault();
      this.show(it("year-branch").value);
    });
  }

  // All rows of a list, part by part; null where it doesn't come.
  async rows(question, ...about) {
    const rows = [];
    for (let after = 0; after !== null;) {
      const answer = await this.desk().ask([question, ...about, after]);
      const list = answer?.reply && readList(question, answer.text);
      if (!list) return null;
      rows.push(...list.rows);
      ({ after } = list);
    }
    return rows;
  }

  async show(branch) {
    this.branch = branch;
    const branches = await this.rows("branches");
    const closed = await this.rows("closed-days", branch);
    const found = branches?.find((row) => String(row.branch) === branch);
    if (!found || !closed || this.branch !== branch || this.desk().day === null) return;
    const months = monthsFrom(this.desk().day, found.week, closed.map(({ day }) => day));
    const focused = document.activeElement.dataset.day;
    it("year-head").textContent = say(TEXTS.yearOf, { branch: branchName(branch) });
    it("year-months").replaceChildren(...months.map((days) => this.monthOf(days)));
    it("year").hidden = false;
    it("year-months").querySelector(`[data-day="${focused}"]`)?.focus();
  }

  monthOf(days) {
    const name = new Intl.DateTimeFormat(document.documentElement.lang, { month: "long", year: "numeric", timeZone: "UTC" }).format(new Date(`${days[0].day}T00:00:00Z`));
    const head = element("tr", {}, ...TEXTS.weekdays.split(" ").map((text) => element("th", { scope: "col", textContent: text })));
    const rows = weeksOf(days).map((week) => element("tr", {}, ...week.map((day) => element("td", {}, ...(day === null ? [] : [this.dayOf(day)])))));
    return element("table", {}, element("caption", { textContent: name }), element("thead", {}, head), element("tbody", {}, ...rows));
  }

  dayOf({ day, state }) {
    const number = String(Number(day.slice(8)));
    if (["over", "weekly"].includes(state)) return element("span", { className: state, textContent: number });
    const isClosed = state === "closed";
    const button = element("button", { type: "button", textContent: number, ariaPressed: String(isClosed), ariaLabel: say(isClosed ? TEXTS.dayClosed : TEXTS.dayOpen, { day }) });
    button.dataset.day = day;
    button.addEventListener("click", () => this.desk().work.press([isClosed ? "open-day" : "close-day", this.branch, day]));
    return button;
  }

  // What was done may have changed the days that are shown.
  ended(words) {
    if (this.branch !== null && ["close-day", "open-day", "week", "begin-day"].includes(words[0])) this.show(this.branch);
  }

  offer(branches, here) {
    it("year-branch").replaceChildren(...branches.map(([number, name]) => new Option(name, number, number === here, number === here)));
  }

  clear() {
    this.branch = null;
    it("year").hidden = true;
    it("year-months").replaceChildren();
  }
}
