// Fills elements of the page. What is there already stays: drawing is what an answer costs most.

/** What an element was filled with last. */
const filled = new WeakMap();

/** Fills an element with a part of a page, if it is not filled with the same already. Whether it was filled.
 * @param {Element} element
 * @param {string} html */
export function fill(element, html) {
  if (filled.get(element) === html) return false;
  element.innerHTML = html;
  filled.set(element, html);
  return true;
}

/** Lets an element be filled anew, as where its content was changed by other means. */
export function forgetFilled(element) {
  filled.delete(element);
}

/** Fills an element with blocks, each a name and a part of a page. Blocks that are there already stay, with what was folded or opened in them by hand; in
 * others the folds with an id keep their state if `keeps` is true. */
export function fillBlocks(element, blocks, keeps) {
  const before = new Map([...element.children].map((child) => [child.getAttribute("data-block"), child]));
  const folds = new Map(keeps ? [...element.querySelectorAll("details[id]")].map((fold) => [fold.id, fold.hasAttribute("open")]) : []);
  const children = blocks.map(([name, html]) => {
    const child = (keeps && before.get(name)) || blockOf(name);
    if (fill(child, html)) for (const fold of child.querySelectorAll("details[id]")) if (folds.has(fold.id)) fold.toggleAttribute("open", folds.get(fold.id));
    return child;
  });
  const isSame = children.length === element.children.length && children.every((child, place) => element.children[place] === child);
  if (!isSame) element.replaceChildren(...children);
}

function blockOf(name) {
  const child = document.createElement("div");
  child.setAttribute("data-block", name);
  return child;
}
