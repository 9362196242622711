// What a tab keeps of its slips and of what it told, so that both are there again after it is loaded anew.

const NAME = "circ.papers";

export class Papers {
  // `most` is how many of the notes are kept.
  constructor(storage, most) {
    Object.assign(this, { storage, most });
    const { slips, notes } = JSON.parse(storage.getItem(NAME) ?? '{"slips":[],"notes":[]}');
    Object.assign(this, { slips, notes });
  }

  keep() {
    this.storage.setItem(NAME, JSON.stringify({ slips: this.slips, notes: this.notes }));
  }

  addSlip(slip) {
    this.slips.push(slip);
    this.keep();
  }

  clearSlips() {
    this.slips = [];
    this.keep();
  }

  // A note is what was sent, what was told of it, and the lines below it. The newest stands last.
  addNote(...note) {
    this.notes = [...this.notes, note].slice(-this.most);
    this.keep();
  }

  clearNotes() {
    this.notes = [];
    this.keep();
  }
}
