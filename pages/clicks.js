// Of a double click, or a key that is held down, the first alone counts.

export const APART = 600;

// `act` as it is called by clicks: those that come right after one that counted are passed over.
export function once(act, now = () => performance.now()) {
  let last = -Infinity;
  return (event, ...more) => {
    if (event.detail > 1 || now() - last < APART) return;
    last = now();
    act(event, ...more);
  };
}
