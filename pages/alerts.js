// What is told first of a patron at the desk: copies that stand ready here, and loans that are late.

import { TEXTS, say } from "./texts.js";

function counted(count, one, some) {
  if (count === 0) return [];
  return [count === 1 ? one : say(some, { count })];
}

// Whether a loan is late on the library's day, which is null where it isn't told yet.
export const isLate = ({ due }, day) => day !== null && due < day;

// The sentences of a patron's page, at a branch and on the library's day.
export function alertsOf({ loans, holds }, branch, day) {
  const ready = holds.filter((hold) => hold.state === "ready" && hold.branch === Number(branch));
  const late = loans.filter((loan) => isLate(loan, day));
  return [...counted(ready.length, TEXTS.oneReadyHere, TEXTS.readyHere), ...counted(late.length, TEXTS.oneLate, TEXTS.someLate)];
}
