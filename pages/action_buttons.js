// The buttons of what can be done with something.

import { plain } from "./isolating.js";
import { TEXTS, say } from "./texts.js";

// Puts elements into a place, unless the same are there: a button that is being pressed, or has the focus, stays.
export function renew(place, made) {
  const other = document.createElement(place.tagName);
  other.append(...made);
  if (other.innerHTML !== place.innerHTML) place.replaceChildren(...other.childNodes);
}

// A button for each action, whose value tells one from another; a screen reader hears what it is about too. `act` does what is pressed.
export function buttonsOf(actions, what, act) {
  return actions.map((action) => {
    const button = document.createElement("button");
    Object.assign(button, { type: "button", className: "action", value: JSON.stringify(action), textContent: action.text, ariaLabel: plain(say(TEXTS.actionOf, { action: action.text, text: what })) });
    button.addEventListener("click", () => act(action));
    return button;
  });
}
