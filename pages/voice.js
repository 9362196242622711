// What a screen reader speaks: a page has one place for what can wait and one for what can't, and whatever is told is spoken once.

const AGAIN = "\u00a0";

// Has a text spoken; the same text a second time differs by a blank, or it would not be heard.
export function speak(text, isUrgent = false, page = document) {
  const place = page.getElementById(isUrgent ? "spoken-now" : "spoken");
  place.textContent = place.textContent === text ? text + AGAIN : text;
}

// Leaves nothing of what was spoken.
export function silence(page = document) {
  for (const id of ["spoken", "spoken-now"]) page.getElementById(id).textContent = "";
}

// Tells when what was served has ended: what is told of it then is whole.
export class Ends {
  constructor() {
    this.served = null;
  }

  // Whether something has ended, by what is served now.
  hasEnded(served) {
    const { served: before } = this;
    this.served = served;
    return before !== null && before !== served;
  }
}
