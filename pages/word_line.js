// The line for any words of the commands, with a hint at what follows the name of one.

import { COMMANDS, commandBegun, readLine, wordsTyped } from "./commands.js";
import { problemOfLine } from "./misread.js";
import { focusScan } from "./scan_line.js";
import { it, tell } from "./screen.js";
import { TEXTS, say } from "./texts.js";

function hint() {
  const name = commandBegun(it("words").value);
  it("parts").textContent = name ? say(TEXTS.wordsFollow, { command: name, parts: COMMANDS[name].join(" ").toUpperCase() }) : "";
}

// Takes the line, which stays in its field where it isn't understood.
function take(work, event) {
  event.preventDefault();
  const line = it("words").value;
  const problem = line.trim() === "" ? null : problemOfLine(line);
  if (problem) return tell(problem, true);
  it("words").value = "";
  hint();
  if (line.trim() !== "") work().words(wordsTyped(readLine(line).words));
  return focusScan();
}

function offerNames() {
  it("names").append(...Object.keys(COMMANDS).map((name) => {
    const option = document.createElement("option");
    option.value = `${name} `;
    return option;
  }));
}

// `work` gives what the open desk does.
export function listenForWords(work) {
  offerNames();
  it("words").addEventListener("input", hint);
  it("wording").addEventListener("submit", (event) => take(work, event));
}
