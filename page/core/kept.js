// An answer that was kept, beside the answer of now: which verdicts and slacks have changed since. Only what the program printed is compared.

/** What an answer says of each row, by what the row is called: its verdict, its least slack and its bounds. */
function rowsOf(analysis) {
  const rows = new Map();
  for (const { row, title: name } of analysis.entries) {
    const bounds = ["min", "max"].map((which) => (row.bounds[which].kind === "number" ? row.bounds[which].value : null));
    let title = name;
    for (let count = 2; rows.has(title); count++) title = `${name} (${count})`;
    rows.set(title, { verdict: row.verdict, slack: row.leastSlack, bounds });
  }
  return rows;
}

export class Kept {
  /** `analysis` is the answer, `files` are the packed files that it is of, and `from` says in words when or where they were kept. */
  constructor(analysis, files, from) {
    this.rows = rowsOf(analysis);
    this.files = files;
    this.from = from;
  }

  /** The rows whose verdict, slack or bounds differ now: a title, what was and what is; null where there was or is no such row. */
  changes(analysis) {
    const rows = rowsOf(analysis);
    const titles = [...new Set([...rows.keys(), ...this.rows.keys()])];
    return titles
      .map((title) => ({ title, before: this.rows.get(title) || null, now: rows.get(title) || null }))
      .filter(({ before, now }) => JSON.stringify(before) !== JSON.stringify(now));
  }
}
