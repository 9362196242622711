// Does what is pressed beside a row: words are sent, a form is filled in, a list is shown, or a patron is served.

import { panelOf } from "./desk_lists.js";
import { focusScan } from "./scan_line.js";
import { showMode } from "./screen.js";
import { showTab } from "./tabs.js";

// Begins the turn of a patron in a mode, unless it is that patron's turn.
function serve(work, patron, mode) {
  if (work.expected !== patron) work.nextPatron();
  showMode(mode);
  work.choose(mode);
  if (work.expected !== patron) work.pick(mode, patron);
  showTab("circulation");
  focusScan();
}

// Opens a form with what is known; of a patron who is amended the kind is asked for too.
async function fill({ work, ask, forms }, command, values) {
  const { expected } = work;
  const answer = command === "amend-patron" ? await ask(["borrower", String(values.patron)]) : null;
  const kind = answer?.reply?.kind === "borrower" ? { kind: answer.reply.patronKind } : {};
  if (work.expected === expected) forms.fill(command, { ...values, ...kind });
}

// `desk` has the work of the open desk, how it asks, its forms, and how it shows a list.
export function act(desk, action) {
  if (action.serves) return serve(desk.work, action.serves, action.mode);
  if (action.fills) return fill(desk, action.fills, action.values);
  if (action.sends) desk.work.press(action.sends, action.about);
  else {
    showTab(panelOf(action.shows));
    desk.showList(action.shows, action.about);
  }
  return focusScan();
}
