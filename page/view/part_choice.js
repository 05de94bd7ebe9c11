// Which part of a board is meant, if several are of one sheet.

import { escaped } from "../core/texts.js";

/** A choice of one of several parts as a part of a form, with a dot after it. If there is one alone it is a text.
 * @param {string} name
 * @param {string[]} parts
 * @param {number} chosen */
export function partChoice(name, parts, chosen) {
  if (parts.length < 2) return `<input type="hidden" name="${name}" value="${escaped(parts[0] || "")}"><b>${escaped(parts[0] || "")}.</b>`;
  const options = parts.map((part, number) => `<option${number === chosen ? " selected" : ""}>${escaped(part)}</option>`).join("");
  return `<select name="${name}" aria-label="part">${options}</select>.`;
}
