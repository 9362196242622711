// The line for scanning: each scan is taken from it at once, and whatever the clerk does between two scans, the next one goes there.

import { once } from "./clicks.js";
import { beginsScan, endsScan, scansIn } from "./scans.js";
import { it, mode, tell } from "./screen.js";
import { TEXTS, say } from "./texts.js";

// the key that was pressed last, where nothing was pressed by a mouse since
const pressed = { key: "" };

export function focusScan() {
  it("scan").focus();
  it("scan").scrollIntoView({ block: "nearest" });
}

const isField = (target) => target.closest("input:not([type=radio], [type=checkbox]), select, textarea") !== null;

// The next scan goes to the line, unless the clerk is in another field.
export function backToLine() {
  const at = document.activeElement;
  if (!it("desk").hidden && (at === it("scan") || !isField(at))) focusScan();
}

function clearLine(search) {
  it("scan").value = "";
  search.end();
}

function take({ work, search }, event, text) {
  event.preventDefault();
  const scans = scansIn(text);
  if (scans.length === 1 && search.enter(text)) return focusScan();
  for (const scan of scans) work().scan(mode(), scan);
  clearLine(search);
  return focusScan();
}

// A field has one line: scans that are put into it together would be glued.
function paste(desk, event) {
  const text = event.clipboardData.getData("text");
  if (/[\r\n\t]/.test(text)) take(desk, event, it("scan").value + text);
}

function listenToLine(desk) {
  const taken = (event) => take(desk, event, it("scan").value);
  it("scanning").addEventListener("submit", taken);
  it("scan").addEventListener("keydown", (event) => endsScan(event, it("scan").value) && taken(event));
  it("scan").addEventListener("paste", (event) => paste(desk, event));
}

// By the arrows one goes on among the modes; whatever else chooses one leads to the line.
function listenToModes({ work, search }) {
  it("modes").addEventListener("change", () => {
    work().choose(mode());
    search.typed();
  });
  it("modes").addEventListener("click", () => pressed.key.startsWith("Arrow") || focusScan());
  it("modes").addEventListener("keydown", (event) => event.key === "Enter" && focusScan());
}

function listenToButtons(work) {
  it("confirming").addEventListener("submit", (event) => event.preventDefault());
  const does = {
    "again": () => work().sendAgain(it("typed").value),
    "send-on": () => work().sendOn(),
    "throw-away": () => work().throwAway(),
  };
  for (const [id, act] of Object.entries(does)) {
    it(id).addEventListener("click", once(() => {
      act();
      focusScan();
    }));
  }
}

// Next patron counts when a mouse presses it, for the page may move before it lets go, and then no click comes; and however soon it comes after another one. What
// stands in the line is for nobody then, and is told.
function listenToNext({ work, search }) {
  let pressedBy = "";
  const end = () => {
    const left = it("scan").value.trim();
    clearLine(search);
    work().nextPatron();
    if (left !== "") tell(say(TEXTS.closedWaiting, { what: left }), true);
    focusScan();
  };
  it("next").addEventListener("pointerdown", (event) => {
    pressedBy = event.pointerType;
    if (pressedBy !== "mouse" || event.button !== 0) return;
    event.preventDefault();
    end();
  });
  it("next").addEventListener("click", ({ detail }) => (detail === 0 || pressedBy !== "mouse") && end());
}

// What goes on in the line: a character, or the end or a correction of what stands there, where that isn't for a button.
const isForLine = (event) => beginsScan(event) || (["Enter", "Backspace"].includes(event.key) && event.target.closest("button, summary, a") === null);

// What is scanned while a button has the focus goes to the line all the same. A click that isn't on a field or a button leads there too, but text that is being
// selected stays so.
function listenToPage(desk) {
  document.addEventListener("keydown", (event) => {
    pressed.key = event.key;
    if (isForLine(event)) backToLine();
  });
  document.addEventListener("paste", (event) => {
    if (it("desk").hidden || isField(event.target)) return;
    paste(desk, event);
    if (!event.defaultPrevented) it("scan").value += event.clipboardData.getData("text").trim();
    focusScan();
  });
  window.addEventListener("focus", backToLine);
  document.addEventListener("pointerdown", () => { pressed.key = ""; });
  document.addEventListener("click", (event) => {
    const isSelecting = !document.getSelection().isCollapsed;
    if (!it("desk").hidden && !isSelecting && !event.target.closest("input, select, button, label, summary, [role=option]")) focusScan();
  });
}

// `work` gives what the open desk does, and `search` is what letters in the line search for.
export function listenForScans({ work, search }) {
  const desk = { work, search };
  listenToLine(desk);
  listenToModes(desk);
  listenToButtons(work);
  listenToNext(desk);
  listenToPage(desk);
}
