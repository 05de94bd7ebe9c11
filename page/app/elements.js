// Elements of the page by their names.

/** The element of the template with this id, of whatever kind it is.
 * @param {string} id
 * @returns {any} */
export function byId(id) {
  return document.getElementById(id);
}
