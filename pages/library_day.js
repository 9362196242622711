// The library's day: it moves only forward, by `begin-day` alone, and may differ from that of this machine.

export class LibraryDay {
  // `ask` sends words and gives their answer, or null once the desk is closed; `shown` shows what is known. The day is null until it is told.
  constructor(ask, shown) {
    Object.assign(this, { ask, shown, now: null, asking: null });
  }

  // Asks for the day; what is asked already isn't asked twice.
  look() {
    this.asking ??= this.asked();
    return this.asking;
  }

  async asked() {
    const answer = await this.ask(["today"]);
    this.asking = null;
    if (answer?.reply?.kind === "day") this.begun(answer.reply.day);
  }

  // Takes a day that was told or begun; an answer that was on its way meanwhile may have an earlier one.
  begun(day) {
    if (this.now === null || day > this.now) this.now = day;
    this.shown();
  }
}
