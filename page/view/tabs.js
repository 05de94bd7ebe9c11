// A row of tabs, as a keyboard and a screen reader expect it: one of them is in the order of Tab, and the arrow keys go to the others.

/** Fills a list of tabs. An item has an `id`, a `label`, and where it needs them a `kind` (a class) and a `hint`. `onSelect` gets the id of a tab. */
export function fillTabs(list, items, selected, onSelect) {
  const shown = JSON.stringify([items, selected]);
  if (list.dataset.shown === shown) return;
  list.dataset.shown = shown;
  focusKept(list, items, selected, onSelect);
}

/** Fills the list anew. The tab that is shown keeps the focus, if a tab had it. */
function focusKept(list, items, selected, onSelect) {
  const hadFocus = list.contains(document.activeElement);
  const tabs = items.map((item) => tabOf(item, item.id === selected, onSelect));
  list.replaceChildren(...tabs);
  list.onkeydown = (event) => moveFocus(event, [...list.children]);
  const chosen = list.querySelector("[aria-selected=true]");
  if (hadFocus && chosen) chosen.focus();
}

function tabOf({ id, label, kind = "", hint = "" }, isSelected, onSelect) {
  const tab = document.createElement("button");
  Object.assign(tab, { type: "button", textContent: label, className: kind, title: hint, tabIndex: isSelected ? 0 : -1 });
  tab.setAttribute("role", "tab");
  tab.setAttribute("aria-selected", String(isSelected));
  tab.dataset.id = id;
  tab.addEventListener("click", () => onSelect(id));
  return tab;
}

function moveFocus(event, tabs) {
  const step = { ArrowRight: 1, ArrowLeft: -1 }[event.key];
  if (!step) return;
  event.preventDefault();
  const next = (tabs.indexOf(document.activeElement) + step + tabs.length) % tabs.length;
  tabs[next].focus();
}
