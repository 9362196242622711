// A desk opens by questions. The day, for which each clerk may ask, tells whether the key is right; the branches, whether there is the one that was chosen. A clerk who lends alone may not
// ask for these, and works at the branch that was typed.

import { readList } from "./questions.js";
import { saidNo } from "./saying.js";
import { MEANINGS } from "./texts.js";

const NOT_ALLOWED = 81;

// What is wrong with a key and a branch, null where nothing is, and the branches where they were told; null where no answer came any more. `ask` sends words.
export async function lookFirst(ask, branch) {
  const day = await ask(["today"]);
  if (day === null) return null;
  if (day.reply?.kind !== "day") return { problem: saidNo(day.reply ? { strange: 200 } : day, ["today"]), rows: null };
  const answer = await ask(["branches", "0"]);
  if (answer === null) return null;
  if (answer.refusal === NOT_ALLOWED) return { problem: null, rows: null };
  const list = answer.reply && readList("branches", answer.text);
  if (!list) return { problem: saidNo(answer.reply ? { strange: 200 } : answer, ["branches"]), rows: null };
  return { problem: list.rows.some((row) => row.branch === Number(branch)) ? null : MEANINGS[10], rows: list.rows };
}
