// Which lanes the diagrams show: all, or those near the row in a large design, or those that were chosen.

import { escaped } from "../core/texts.js";

/** The titles of all lanes of a design that draw something. */
function titlesOf(design) {
  return design.parts.flatMap(({ sheet }, part) => sheet.lanes.flatMap((lane, number) => (lane.wave || lane.marks.length ? [design.laneTitle(part, number)] : [])));
}

/** The choice of lanes as a folded part of a page; empty where there is nothing to choose. `chosen` is the set of the titles, or null. */
export function laneChoiceOf(design, chosen) {
  const titles = titlesOf(design);
  if (titles.length < 2) return "";
  const boxes = titles.map((title) => `<label><input type="checkbox" data-lane-choice="${escaped(title)}"${!chosen || chosen.has(title) ? " checked" : ""}> <span class="name">${escaped(title)}</span></label>`);
  const back = '<button type="button" class="small lanes-back">as at first</button>';
  return `<details class="lane-choice" id="lane-choice"><summary>lanes of the diagrams</summary><p class="remark">The lanes of a row are always shown.</p><div>${boxes.join("")} ${back}</div></details>`;
}

/** The titles that are chosen in such a part. */
export function chosenIn(element) {
  return new Set([...element.querySelectorAll("[data-lane-choice]:checked")].map((box) => box.dataset.laneChoice));
}
