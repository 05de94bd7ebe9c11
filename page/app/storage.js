// What the browser keeps for the page from one visit to the next. A browser may keep nothing; then all is as on the first visit.

const PREFIX = "itv ";

/** What is kept under a name; null where nothing is. */
export function kept(name) {
  try {
    return localStorage.getItem(PREFIX + name);
  } catch {
    return null;
  }
}

/** Keeps a text under a name, or drops what is kept where the text is null. Whether the browser has taken it. */
export function keep(name, text) {
  try {
    if (text === null) localStorage.removeItem(PREFIX + name);
    else localStorage.setItem(PREFIX + name, text);
    return true;
  } catch {
    return false;
  }
}
