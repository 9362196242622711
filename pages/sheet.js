// What is done with a table that is shown: its rows are sorted by a column, and it is saved as a file.

import { plain } from "./isolating.js";

const NUMBER = /^\d+(?:\.\d\d)?$/;

function compare(one, other) {
  if (one === "" || other === "") return (one === "") - (other === "");
  if (NUMBER.test(one) && NUMBER.test(other)) return Number(one) - Number(other);
  return plain(one).localeCompare(plain(other));
}

// The rows by the cells of a column, upwards or downwards; empty cells stand last, and rows with equal cells as they stood.
export function sorted(rows, { column, isDown }) {
  return [...rows].sort((one, other) => {
    const [a, b] = [one[column], other[column]];
    return a === "" || b === "" || !isDown ? compare(a, b) : compare(b, a);
  });
}

// How rows are sorted once a column is chosen: upwards, and downwards where they are sorted upwards by it already.
export function sortedNext(now, column) {
  return { column, isDown: now?.column === column && !now.isDown };
}

function field(text) {
  return /[",\r\n]/.test(text) ? `"${text.replaceAll('"', '""')}"` : text;
}

// A table as comma-separated values, for a spreadsheet.
export function csvOf({ columns, rows }) {
  return [columns, ...rows].map((cells) => `${cells.map((cell) => field(plain(cell))).join(",")}\r\n`).join("");
}

// The name of the file that a table is saved in.
export function fileNameOf(question, day) {
  return `${question}${day === null ? "" : `-${day}`}.csv`;
}
