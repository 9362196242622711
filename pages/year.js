// The days of a branch for a year, by months: open, closed by the week, closed singly, or over.

const MONTHS = 12;
const textOf = (date) => date.toISOString().slice(0, 10);

// The months from that of a day on, each with its days; a day has its place in the week, Monday first. `week` has a letter for each weekday, and `closed` the days that are closed singly.
export function monthsFrom(today, week, closed) {
  const [year, month] = today.split("-").map(Number);
  return Array.from({ length: MONTHS }, (_, at) => {
    const count = new Date(Date.UTC(year, month + at, 0)).getUTCDate();
    return Array.from({ length: count }, (__, before) => {
      const date = new Date(Date.UTC(year, month - 1 + at, before + 1));
      const [day, place] = [textOf(date), (date.getUTCDay() + 6) % 7];
      const state = day <= today ? "over" : closed.includes(day) ? "closed" : week[place] === "c" ? "weekly" : "open";
      return { day, place, state };
    });
  });
}

// The days of a month by weeks: seven places each, null where the month has no day there.
export function weeksOf(days) {
  const places = [...Array(days[0].place).fill(null), ...days];
  return Array.from({ length: Math.ceil(places.length / 7) }, (_, at) => Array.from({ length: 7 }, (__, place) => places[7 * at + place] ?? null));
}
