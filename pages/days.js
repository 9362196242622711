// Days, each written as 2026-03-09.

// The day of this machine.
export function today(now = new Date()) {
  return `${now.getFullYear()}-${String(now.getMonth() + 1).padStart(2, "0")}-${String(now.getDate()).padStart(2, "0")}`;
}

// Whether a text is a day that the library can have.
export function isDay(text) {
  const isForm = /^[0-9]{4}-[0-9]{2}-[0-9]{2}$/.test(text) && text >= "2000-01-01" && text <= "2199-12-31";
  const at = isForm ? new Date(`${text}T00:00:00Z`) : new Date(NaN);
  return !Number.isNaN(at.getTime()) && at.toISOString().startsWith(text);
}

// The days from one day to another.
export function daysBetween(from, to) {
  return Math.round((Date.parse(`${to}T00:00:00Z`) - Date.parse(`${from}T00:00:00Z`)) / 86_400_000);
}
