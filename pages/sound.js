// The sounds of a refusal and of a copy that wants more than its shelf, which can be switched off; the choice stays with the browser.

const OFF = "circ.sound";
// what sounds, once something did
const made = { context: null };

export function isSoundOn() {
  return localStorage.getItem(OFF) !== "off";
}

export function switchSound(isOn) {
  if (isOn) localStorage.removeItem(OFF);
  else localStorage.setItem(OFF, "off");
}

// Plays notes one after another, each with when it begins, in seconds; a browser that gives no sound says nothing.
function play(notes, type) {
  if (!isSoundOn() || !window.AudioContext) return;
  made.context ??= new AudioContext();
  const { context } = made;
  for (const [begin, hertz] of notes) {
    const note = context.createOscillator();
    note.type = type;
    note.frequency.value = hertz;
    note.connect(context.destination);
    note.start(context.currentTime + begin);
    note.stop(context.currentTime + begin + 0.18);
  }
}

// Two low notes.
export function soundAlarm() {
  play([[0, 220], [0.25, 220]], "square");
}

// Two high notes, of which the second is higher.
export function soundChime() {
  play([[0, 660], [0.2, 880]], "sine");
}
