// Names and titles within texts, which may be written from right to left and mustn't turn the words and numbers beside them. They are marked by characters that no
// name has, and stand on the page in elements of their own.

const [BEGIN, END] = ["\u0002", "\u0003"];
const PARTS = /(\u0002[^\u0003]*\u0003|[0-9]{4}-[0-9]{2}-[0-9]{2})/;

export function marked(name) {
  return `${BEGIN}${name}${END}`;
}

// A text as it stands where there are no elements.
export function plain(text) {
  return text.replaceAll(BEGIN, "").replaceAll(END, "");
}

function elementOf(part) {
  const isName = part.startsWith(BEGIN);
  if (!isName && !PARTS.test(part)) return part;
  const made = document.createElement(isName ? "bdi" : "span");
  made.textContent = plain(part);
  if (!isName) made.className = "whole";
  return made;
}

// Puts a text into a place of the page: marked names by themselves, and days in one piece.
export function write(place, text) {
  place.replaceChildren(...text.split(PARTS).filter((part) => part !== "").map(elementOf));
  return place;
}
