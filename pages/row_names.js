// The names of patrons in lists whose rows have numbers alone: each is asked for, a few at a time.

const AT_ONCE = 4;
const NOT_ALLOWED = 81;

// Asks for the names of patrons, and tells each as it comes by `named`, for as long as `isWanted`; what isn't answered by a name stays without, and a refusal of what a clerk may not ask ends it.
export async function askForNames(patrons, { ask, isWanted, named }) {
  const left = [...patrons];
  const next = async () => {
    while (left.length > 0 && isWanted()) {
      const patron = left.shift();
      const { reply, refusal, status } = await ask(["borrower", String(patron)]) ?? {};
      if (refusal === NOT_ALLOWED || status !== undefined) left.length = 0;
      else if (reply?.kind === "borrower" && isWanted()) named(patron, reply.name);
    }
  };
  await Promise.all(Array.from({ length: AT_ONCE }, next));
}
