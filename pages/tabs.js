// The tabs of the desk's page: one panel is shown, and the arrow keys go from tab to tab.

import { it } from "./screen.js";

const tabs = () => [...it("tabs").children];

// The place of the tab to which a key leads from that of another; null where it leads to none.
export function placeAfter(key, place, count) {
  return new Map([["ArrowRight", (place + 1) % count], ["ArrowLeft", (place + count - 1) % count], ["Home", 0], ["End", count - 1]]).get(key) ?? null;
}

// Shows the panel of this name alone.
export function showTab(name) {
  for (const tab of tabs()) {
    const panel = tab.getAttribute("aria-controls");
    tab.setAttribute("aria-selected", String(panel === name));
    tab.tabIndex = panel === name ? 0 : -1;
    document.getElementById(panel).hidden = panel !== name;
  }
}

export function listenForTabs() {
  it("tabs").addEventListener("click", (event) => {
    const tab = event.target.closest("[role=tab]");
    if (tab) showTab(tab.getAttribute("aria-controls"));
  });
  it("tabs").addEventListener("keydown", (event) => {
    const place = placeAfter(event.key, tabs().indexOf(event.target), tabs().length);
    if (place === null) return;
    event.preventDefault();
    tabs()[place].focus();
    tabs()[place].click();
  });
  showTab("circulation");
}
