// The cover of a desk that was left: one line, and the field for the desk key. What waits goes on being sent below it, and nothing that stands there is shown or pressed.

import { once } from "./clicks.js";
import { Idle } from "./idle.js";
import { it } from "./screen.js";
import { soundAlarm } from "./sound.js";
import { IDLE_MINUTES, TEXTS, say } from "./texts.js";

const COVERED = ["main", "desk", "scanning", "sign-out"];

export class Cover {
  // `key` gives the key that the desk was opened with, and `lifted` is called once it is typed; `left` where the desk is left to another clerk.
  constructor(key, lifted, left) {
    Object.assign(this, { key, lifted, left, idle: new Idle(() => this.put()) });
    it("cover").addEventListener("submit", (event) => {
      event.preventDefault();
      this.lift(it("cover-key").value.trim());
    });
    it("cover-leave").addEventListener("click", once(() => this.leave()));
    it("main").addEventListener("click", (event) => this.hold(event), { capture: true });
  }

  show(isCovered) {
    it("cover").hidden = !isCovered;
    for (const id of COVERED) it(id).hidden = isCovered;
  }

  // The field for the key is empty, and the line is read with it.
  ask(text, isWrong) {
    it("cover-told").textContent = text;
    it("cover-told").classList.toggle("wrong", isWrong);
    it("cover-key").value = "";
    it("cover-key").focus();
  }

  put() {
    this.show(true);
    this.ask(say(TEXTS.covered, { minutes: IDLE_MINUTES }), false);
  }

  // Whatever is scanned without a look at the screen is no key, and has a sound.
  lift(key) {
    if (key !== this.key()) {
      soundAlarm();
      return this.ask(TEXTS.coveredWrong, true);
    }
    it("cover-key").value = "";
    this.show(false);
    this.idle.renew();
    return this.lifted();
  }

  leave() {
    it("cover-key").value = "";
    this.show(false);
    this.left();
  }

  // What is covered isn't pressed by its access key, either.
  hold(event) {
    if (it("cover").hidden) return;
    event.preventDefault();
    event.stopImmediatePropagation();
  }
}
