// Drafts: open files as they are kept, so that no work is lost by a reload or by opening other files.

/** How many designs that were put aside are kept. */
export const MOST_FORMER = 5;

/** The open files as a draft: what is packed, the names of the files that have changed since they were saved, and the file that is shown.
 * @param {import("./files.js").Files} files
 * @param {string} current */
export function draftOf(files, current) {
  return { ...files.packed(), changed: files.list.filter((file) => file.changed).map((file) => file.name), current };
}

/** Whether a value is a draft: names and texts, and a design among them. */
function isDraft(value) {
  const isRecord = value !== null && typeof value === "object" && value.files !== null && typeof value.files === "object";
  return isRecord && Object.values(value.files).every((text) => typeof text === "string") && Array.isArray(value.changed) && Object.hasOwn(value.files, value.design);
}

/** What was kept: the draft of the files that were open, null where nothing of them had changed, and the designs that were put aside. Of a text that is broken
 * nothing is taken.
 * @param {string | null} text */
export function draftsIn(text) {
  try {
    const { now, former } = JSON.parse(text);
    return { now: isDraft(now) ? now : null, former: Array.isArray(former) ? former.filter(isDraft) : [] };
  } catch {
    return { now: null, former: [] };
  }
}

/** The drafts as a text; null where there is nothing to keep. */
export function draftsText(now, former) {
  return now.changed.length || former.length ? JSON.stringify({ now: now.changed.length ? now : null, former }) : null;
}

/** A short name for files, by which drafts of pages that open with different files are kept apart. */
export function nameOfFiles({ design, files }) {
  let sum = 0;
  for (const char of JSON.stringify([design, files])) sum = (Math.imul(sum, 31) + char.codePointAt(0)) | 0;
  return (sum >>> 0).toString(16);
}
