// The grades of the parts as menus: another one is chosen, and the netlist names it from then on.

import { escaped } from "../core/texts.js";
import { fill } from "./fill.js";

export class GradesMenu {
  /** `set(number, grade)` gives the part of this number another grade.
   * @param {HTMLElement} box
   * @param {(number: number, grade: string) => void} set */
  constructor(box, set) {
    this.box = box;
    box.addEventListener("change", (event) => {
      const menu = /** @type {HTMLSelectElement} */ (event.target);
      set(Number(menu.dataset.part), menu.value);
    });
  }

  /** Shows the parts that have a choice: each has its number, its name, its grade, and the names of all grades.
   * @param {{ number: number, name: string, grade: string, names: string[] }[]} parts */
  show(parts) {
    this.box.hidden = !parts.length;
    const menus = parts.map(({ number, name, grade, names }) => `<label>${escaped(name)} <select data-part="${number}">${optionsOf(grade, names)}</select></label>`);
    fill(this.box, `grade of ${menus.join(" ")}`);
    // The menus stay as they are while another grade is chosen, so that they keep the focus.
    for (const { number, grade } of parts) /** @type {any} */ (this.box.querySelector(`[data-part="${number}"]`)).value = grade;
  }
}

function optionsOf(grade, names) {
  const none = names.includes(grade) ? "" : `<option value="${escaped(grade)}">${escaped(grade || "none")}</option>`;
  return none + names.map((name) => `<option>${escaped(name)}</option>`).join("");
}
