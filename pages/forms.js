// The forms that lines of the desk are made of, and how a line is read by them.

export const NUMBER = "(0|[1-9][0-9]{0,15})";
export const DAY = "([0-9]{4}-[0-9]{2}-[0-9]{2})";
export const BARCODE = "([A-Za-z0-9]{1,24})";
// a name or a title: whatever a line can hold, and a line ends at a newline alone
export const TEXT = "([^\\n]+)";

// What is made by the first of these forms that the whole text has; null where it has none.
export function firstOf(forms, text) {
  for (const [form, made] of forms) {
    const found = new RegExp(`^${form}$`).exec(text);
    if (found) return made(found.slice(1));
  }
  return null;
}
