// The due days of loans as a file for a calendar, in the form of RFC 5545.

import { plain } from "./isolating.js";
import { TEXTS, say } from "./texts.js";

const MOST_OCTETS = 75;

const escaped = (text) => text.replace(/[\\;,]/g, "\\$&");
const compact = (day) => day.replaceAll("-", "");

// A line in parts of so many octets, each but the first begun by a blank; no letter is torn.
function folded(line) {
  const parts = [""];
  let octets = 0;
  for (const letter of line) {
    const more = new TextEncoder().encode(letter).length;
    if (octets + more > MOST_OCTETS) {
      parts.push(" ");
      octets = 1;
    }
    parts[parts.length - 1] += letter;
    octets += more;
  }
  return parts.join("\r\n");
}

function eventOf({ loan, due, text }, stamp) {
  return ["BEGIN:VEVENT", `UID:loan-${loan}-${due}@circ`, `DTSTAMP:${stamp}`, `DTSTART;VALUE=DATE:${compact(due)}`, `SUMMARY:${escaped(plain(say(TEXTS.dueOf, { text })))}`, "TRANSP:TRANSPARENT", "END:VEVENT"];
}

// The file of loans, made at a moment.
export function calendarOf(loans, now = new Date()) {
  const stamp = `${now.toISOString().slice(0, 19).replace(/[-:]/g, "")}Z`;
  const lines = ["BEGIN:VCALENDAR", "VERSION:2.0", "PRODID:-//circ//EN", ...loans.flatMap((loan) => eventOf(loan, stamp)), "END:VCALENDAR"];
  return lines.map((line) => `${folded(line)}\r\n`).join("");
}
