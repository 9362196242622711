// The commands of the desk with the names of their parts, as the program has them: tests/gate/pages.py compares them.

export const COMMANDS = {
  "begin-day": ["day"],
  "branch": ["branch", "pickup", "name"],
  "week": ["branch", "mask"],
  "close-day": ["branch", "day"],
  "open-day": ["branch", "day"],
  "kind": ["kind", "loans", "holds", "debt"],
  "rule": ["kind", "copy-kind", "period", "renewals", "rate", "cap"],
  "grace": ["kind", "copy-kind", "days"],
  "patron": ["patron", "kind", "card-key", "name"],
  "acquire": ["copy", "title", "kind", "home", "price", "text"],
  "card-key": ["patron", "card-key"],
  "amend-patron": ["patron", "kind", "name"],
  "amend-branch": ["branch", "pickup", "name"],
  "amend-title": ["title", "text"],
  "amend-copy": ["copy", "kind", "price"],
  "rehome": ["copy", "branch"],
  "copy-barcode": ["copy", "barcode"],
  "patron-barcode": ["patron", "barcode"],
  "drop-barcode": ["barcode"],
  "check-out": ["patron", "copy", "branch"],
  "check-in": ["copy", "branch"],
  "renew": ["loan"],
  "place-hold": ["patron", "title", "branch"],
  "place-hold-from": ["patron", "title", "branch", "day"],
  "cancel-hold": ["hold"],
  "unshelve": ["hold"],
  "unshelve-cancelled": ["hold"],
  "missing": ["copy"],
  "withdraw": ["copy"],
  "pay": ["patron", "amount"],
  "waive": ["patron", "amount"],
  "charge": ["patron", "amount", "branch", "text"],
  "pay-at": ["patron", "amount", "branch"],
  "page": ["patron"],
  "copy": ["copy"],
  "copies": ["title", "after"],
  "queue": ["title", "after"],
  "account": ["patron", "after"],
  "debts": ["after"],
  "overdue": ["branch", "after"],
  "shelf": ["branch", "after"],
  "pulls": ["branch", "after"],
  "transits": ["branch", "after"],
  "till": ["day"],
  "today": [],
  "borrower": ["patron"],
  "find-patrons": ["after", "text"],
  "find-titles": ["after", "text"],
  "branches": ["after"],
  "closed-days": ["branch", "after"],
  "kinds": ["after"],
  "rules": ["kind", "after"],
  "missing-copies": ["after"],
  "loans": ["copy", "after"],
  "find-barcode": ["barcode"],
  "till-at": ["branch", "day"],
};

// The kinds of the parts that aren't numbers.
export const KINDS = {
  "day": "Day",
  "name": "Name",
  "mask": "Mask",
  "debt": "Amount",
  "rate": "Amount",
  "cap": "Amount",
  "card-key": "CardKey",
  "barcode": "Barcode",
  "price": "Amount",
  "text": "Name",
  "amount": "Amount",
};

// The commands that only ask.
export const QUESTIONS = ["page", "copy", "copies", "queue", "account", "debts", "overdue", "shelf", "pulls", "transits", "till", "today", "borrower", "find-patrons", "find-titles",
  "branches", "closed-days", "kinds", "rules", "missing-copies", "loans", "find-barcode", "till-at"];

// Whether words only ask, and change nothing.
export const onlyAsk = (words) => QUESTIONS.includes(words[0]);

// The words of a line, parted by blanks, where what stands in quotes of one kind is one word; and the rest, where a quote isn't closed or stands within a word.
export function readLine(line) {
  const words = [];
  const form = /\s*(?:'([^']*)'|"([^"]*)"|([^\s'"]+))(?=\s|$)/y;
  let at = 0;
  while (at < line.length) {
    form.lastIndex = at;
    const found = form.exec(line);
    if (!found) return { words, rest: line.slice(at).trim() };
    words.push(found[1] ?? found[2] ?? found[3]);
    at = form.lastIndex;
  }
  return { words, rest: "" };
}

// Typed words as the desk takes them: their amounts, such as 2.50, in cents. They are of a command in its form.
export function wordsTyped([command, ...words]) {
  return [command, ...words.map((word, at) => (KINDS[COMMANDS[command][at]] === "Amount" ? String(centsOf(word)) : word))];
}

// The command whose name begins the line, for a hint.
export function commandBegun(line) {
  const name = line.trimStart().split(/\s/, 1)[0];
  return Object.hasOwn(COMMANDS, name) ? name : null;
}

// The body by which a patron asks for a hold; it names a first day where one is given.
export function holdBody(title, branch, day) {
  return JSON.stringify({ branch: Number(branch), ...(day ? { from: day } : {}), title: Number(title) });
}

export function isKey(text) {
  return /^[A-Za-z0-9]{8,32}$/.test(text);
}

export function isBarcode(text) {
  return /^[A-Za-z0-9]{1,24}$/.test(text);
}

export function isNumber(text) {
  return /^(0|[1-9][0-9]{0,9})$/.test(text) && Number(text) <= 4_294_967_295;
}

// Cents of an amount such as 2.50 or 2,50; null where it is none, as any number without a point.
export function centsOf(text) {
  const found = /^(0|[1-9][0-9]{0,8})[.,]([0-9]{2})$/.exec(text);
  return found ? Number(found[1]) * 100 + Number(found[2]) : null;
}
