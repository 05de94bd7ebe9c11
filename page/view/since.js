// What has changed since an answer was kept, and the answer as a table of Markdown or of values with commas.

import { boundText, counted, demandedText, escaped, inUnit } from "../core/texts.js";

const WORDS = { pass: "passes", fail: "fails", undecided: "is undecided" };
const TOOLS = '<button type="button" class="small kept-back">put the kept design back</button> <button type="button" class="small kept-drop">forget it</button>';

/** What has changed since an answer was kept, as a part of a page. */
export function sinceOf(kept, analysis) {
  if (!analysis.report) return `<p>${escaped(kept.from)} ${TOOLS}</p>`;
  const changes = kept.changes(analysis);
  if (!changes.length) return `<p>Nothing has changed since ${escaped(kept.from)}. ${TOOLS}</p>`;
  const isFail = (row) => row !== null && row.verdict === "fail";
  const broken = changes.filter(({ before, now }) => isFail(now) && !isFail(before)).length;
  const mended = changes.filter(({ before, now }) => isFail(before) && now !== null && now.verdict === "pass").length;
  const says = [`${counted(changes.length, "row")} changed`, broken ? `${broken} newly failing` : "", mended ? `${mended} mended` : ""];
  const heads = '<tr><th scope="col">row</th><th scope="col">then</th><th scope="col">now</th><th scope="col" class="number">slack changed by</th></tr>';
  return (
    `<details class="since" id="since-list" open><summary>since ${escaped(kept.from)}: ${says.filter((part) => part).join(", ")}</summary>` +
    `<table><thead>${heads}</thead><tbody>${changes.map((change) => lineOf(change, analysis.unit)).join("")}</tbody></table>${TOOLS}</details>`
  );
}

function saidOf(row, unit) {
  if (!row) return "not there";
  if (!row.verdict) return row.bounds.map((bound) => (bound === null ? "?" : inUnit(bound, unit))).join(" to ");
  return `${WORDS[row.verdict]}${row.slack === null ? "" : `, ${inUnit(row.slack, unit)}`}`;
}

function lineOf({ title, before, now }, unit) {
  const isKnown = before && now && before.slack !== null && now.slack !== null;
  const by = isKnown ? now.slack - before.slack : 0;
  const kind = by > 0 ? "verdict-pass" : by < 0 ? "verdict-fail" : "";
  const change = isKnown ? `${by > 0 ? "+" : ""}${inUnit(by, unit)}` : "";
  return `<tr><th scope="row">${escaped(title)}</th><td>${saidOf(before, unit)}</td><td>${saidOf(now, unit)}</td><td class="number ${kind}">${change}</td></tr>`;
}

/** The rows of an answer as texts: name, demand, least, greatest, verdict, slack. */
function cellsOf(analysis) {
  return analysis.entries.map(({ title, row }) => [
    title,
    row.kind === "req" ? demandedText(row, analysis.unit) : "a question",
    boundText(row.bounds.min, analysis.unit),
    boundText(row.bounds.max, analysis.unit),
    row.verdict || "",
    row.leastSlack === null ? "" : inUnit(row.leastSlack, analysis.unit),
  ]);
}

const HEADS = ["requirement", "demanded", "least", "greatest", "verdict", "slack"];

/** The answer as a table of Markdown, for a review or an issue. */
export function markdownOf(analysis, sentence) {
  const line = (cells) => `| ${cells.map((text) => text.replace(/\|/g, "\\|")).join(" | ")} |`;
  return `**${sentence}**\n\n${[line(HEADS), `|${HEADS.map(() => "---|").join("")}`, ...cellsOf(analysis).map(line)].join("\n")}\n`;
}

/** The answer as values with commas, one line for each row, as a spreadsheet reads them. */
export function csvOf(analysis) {
  const cell = (text) => (/[",\n]/.test(text) ? `"${text.replace(/"/g, '""')}"` : text);
  return [HEADS, ...cellsOf(analysis)].map((cells) => `${cells.map(cell).join(",")}\r\n`).join("");
}
