// A network for tests of the pages: what is sent is noted, and the answers are those that a test gives, each after some milliseconds.

export class Kept {
  constructor() { this.all = new Map(); }
  getItem(name) { return this.all.get(name) ?? null; }
  setItem(name, text) { this.all.set(name, text); }
  removeItem(name) { this.all.delete(name); }
  clear() { this.all.clear(); }
  get length() { return this.all.size; }
  key(at) { return [...this.all.keys()][at]; }
}

const NOBODYS = [0, 409, '{"refusal":18}'];

// `answers` are [milliseconds, status, text], in turn, or a function from the body that is sent to one; a status of null is no answer at all, and a text of
// null one that is cut off. Whose a barcode is is asked before each scan: it is noted apart, as `barcodes`, and answered by a function from the barcode, or as nobody's.
export function network(answers, answerOf = () => NOBODYS) {
  const sent = Object.defineProperty([], "barcodes", { value: [] });
  globalThis.fetch = async (path, { headers, body, signal }) => {
    const [question, barcode] = path === "/desk" ? JSON.parse(body) : [];
    const isBarcode = question === "find-barcode";
    const [milliseconds, status, text] = (isBarcode ? answerOf(barcode, sent.barcodes.length) : typeof answers === "function" ? answers(body, sent.length) : answers[sent.length]) ?? [60_000];
    if (isBarcode) sent.barcodes.push(barcode);
    else sent.push([path, headers["Request-Key"], headers["Desk-Key"], body]);
    await new Promise((done, failed) => {
      const end = () => { clearTimeout(timer); failed(new Error("aborted")); };
      const timer = setTimeout(() => { signal?.removeEventListener("abort", end); done(); }, milliseconds);
      if (milliseconds >= 60_000) timer.unref();
      signal?.addEventListener("abort", end);
    });
    if (status === null) throw new TypeError("no network");
    return { status, text: async () => { if (text === null) throw new TypeError("cut off"); return text; } };
  };
  return sent;
}
