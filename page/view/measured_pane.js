// What is under the tab of a capture: what was measured beside what is drawn and computed, and the first broken run to scale.

import { nameOf } from "../core/answer.js";
import { boundText, counted, demandedText, escaped, inUnit } from "../core/texts.js";
import { typedOf } from "../core/typed.js";
import { svgOf } from "../draw/picture.js";

const SIGNS = { fail: "✗ broken", near: "? near", unseen: "? not seen", pass: "✓ kept" };
/** The class of a verdict, as those of rows are. */
const KINDS = { fail: "fail", near: "undecided", unseen: "undecided", pass: "pass" };
/** The place of lines that are kept, or that ask, after the others. */
const RANK_OF_OTHERS = 4;
const CLOCK_UNITS = ["ps", "ns", "us", "ms", "s"];

/** What the capture shows of the answer, as a part of a page: of its lines one is drawn, the one that is broken first where none was chosen. */
export function measuredPane(analysis) {
  const { measured, capture, shownLine: shown } = analysis;
  if (!measured) return `<p class="verdict-fail">${escaped(capture.name)}: ${escaped(capture.fault)}</p>${settingsOf(capture, null, analysis.unit)}`;
  const line = shown !== null && measured.lines[shown] && measured.lines[shown].tally.slack ? measured.lines[shown] : measured.broken;
  return [answerOf(measured, analysis.unit), tableOf(measured, analysis.unit), line ? figureOf(analysis, measured, line) : "", settingsOf(capture, measured, analysis.unit)].join("\n");
}

// What is said.

function answerOf(measured, unit) {
  const { judged, runs, broken, capture } = measured;
  const failed = judged.filter(({ verdict }) => verdict === "fail").length;
  const of = `${counted(judged.length, "rule")} and requirements`.replace(/^1 rule and requirements$/, "1 rule or requirement");
  const about = `<span class="name">${escaped(capture.name)}</span>: ${counted(runs.length, "run")}`;
  if (!runs.length) return `<p class="verdict-undecided">? ${about}. ${measured.start ? "" : "No signal is a lane with marks: choose the signals below."}</p>`;
  if (!broken) {
    const others = judged.filter(({ verdict }) => verdict !== "pass").length;
    return `<p class="verdict-${others ? "undecided" : "pass"}"><b>${others ? "?" : "✓"} ${judged.length - others} of ${of} were kept.</b> ${about}.</p>`;
  }
  const { look } = measured.caseOf(broken, broken.tally.first);
  const says = `<span class="name">${escaped(broken.title)}</span> is broken by ${inUnit(-look.slack, unit)} in run ${broken.tally.first}.`;
  return `<p class="verdict-fail"><b>✗ ${says}</b> ${failed} of ${of} ${failed === 1 ? "is" : "are"} broken. ${about}.</p>`;
}

// The table.

/** The lines: broken ones first, then those that are near and those that were not seen. */
function tableOf(measured, unit) {
  const heads = ["rule or requirement", "allowed", "computed"].map((head) => `<th scope="col">${head}</th>`).join("");
  const numbers = ["least", "greatest", "slack"].map((head) => `<th scope="col" class="number" title="as measured">${head}</th>`).join("");
  const rank = ({ verdict }) => ["fail", "near", "unseen"].indexOf(verdict) + 1 || RANK_OF_OTHERS;
  const inOrder = measured.lines.map((line, number) => ({ line, number })).sort((a, b) => rank(a.line) - rank(b.line));
  const lines = inOrder.map(({ line, number }) => lineOf(line, number, unit)).join("\n");
  return `<div class="table-box"><table class="rows measured"><thead><tr>${heads}${numbers}<th scope="col">verdict</th></tr></thead><tbody>${lines}</tbody></table></div>`;
}

/** A number with the run that shows it. */
function foundCell(found, kind, unit) {
  if (!found || found.value === Infinity) return `<td class="number"></td>`;
  return `<td class="number ${kind}">${together(inUnit(found.value, unit))}<small>run ${found.run}</small></td>`;
}

/** A text whose numbers stay beside their units. */
function together(text) {
  return text.replace(/ (?=(?:s|ms|us|ns|ps)\b)/g, "&nbsp;");
}

function lineOf(line, number, unit) {
  const { tally, entry, verdict, isLinear } = line;
  const name = entry ? nameOf(entry) : `<span class="name">${escaped(line.title)}</span>`;
  const kind = { late: "the latest decides", early: "the earliest decides", ask: "a question", req: "a requirement", lin: "a rule" }[line.kind];
  const drawn = isLinear ? (line.kind === "ask" ? "" : demandedText(line.range, unit)) : `${line.constraints[0].causes.length} causes`;
  const computed = entry ? `${boundText(entry.row.bounds.min, unit)} to ${boundText(entry.row.bounds.max, unit)}` : "";
  const separations = isLinear ? foundCell(tally.least, "least", unit) + foundCell(tally.greatest, "greatest", unit) : '<td class="number"></td><td class="number"></td>';
  const count = verdict === "fail" ? `${tally.broken} of ${counted(tally.seen, "run")}` : verdict === "unseen" ? "" : counted(tally.seen, "run");
  const draw = verdict === "fail" ? `<button type="button" class="small draw-run" data-line="${number}">draw run ${tally.first}</button>` : "";
  const said = verdict === null ? "" : `${SIGNS[verdict]}`;
  return (
    `<tr class="${verdict ? KINDS[verdict] : "ask"}"><th scope="row">${name}<small>${kind}</small></th><td class="demand">${together(drawn)}</td><td class="computed">${together(computed)}</td>${separations}` +
    `${verdict === null ? '<td class="number"></td>' : foundCell(tally.slack, "slack", unit)}<td class="verdict verdict-${verdict ? KINDS[verdict] : ""}">${said}<small>${count}</small>${draw}</td></tr>`
  );
}

// The drawing of a run.

/** The diagram of the worst constraint of a line in its first broken run. Of several causes each is a step. */
function figureOf(analysis, measured, line) {
  const run = line.tally.first ?? line.tally.slack.run;
  const { constraint, look, cause, times } = measured.caseOf(line, run);
  const separation = look.separations[look.cause];
  const slack = [cause.low === null ? null : separation - cause.low, cause.high === null ? null : cause.high - separation];
  const row = { number: -1, kind: "req", start: cause.event, end: constraint.end, low: cause.low, high: cause.high, slack };
  const steps = constraint.causes.length < 2 ? [] : constraint.causes.map((each, number) => ({ start: each.event, end: constraint.end, weight: look.separations[number], origin: each.origin }));
  const bound = { which: look.side === "low" ? "min" : "max", kind: "number", value: separation, limit: null, times, raised: [], steps };
  const title = `${line.title} in run ${run} of ${measured.capture.name}`;
  const caption = `<figcaption><b>${escaped(title)}</b></figcaption>`;
  return `<figure class="measured-run" data-run="${run}">${caption}\n${svgOf({ ...analysis, views: null }, row, bound, title)}</figure>`;
}

// How the capture is read.

function settingsOf(capture, measured, unit) {
  const { settings } = capture;
  const field = (name, label, value, title, size = 6) => `<label title="${title}">${label} <input name="${name}" value="${escaped(value)}" size="${size}" autocomplete="off"></label>`;
  const levels = settings.levels ? [...new Set([settings.levels.low, settings.levels.high])].join(", ") : "";
  const fields = [
    field("within", `tolerance [${unit.name}]`, typedOf(settings.within, unit.size), "a rule is broken if it is missed by more than this"),
    field("shortest", `ignore pulses below [${unit.name}]`, typedOf(settings.shortest, unit.size), "values that last less are ignored"),
    field("levels", "levels [V]", levels, "of voltages: a signal is 1 from this one on; with two of them it is 0 below the first", 8),
    choiceOf("unit", "unit of the times", [["", "as the file says"], ...CLOCK_UNITS.map((name) => [name, name])], settings.unit || ""),
    ...(measured ? [choiceOf("cycle", "a run begins with", [["", "the first mark that has a signal"], ...marksOf(measured).map((mark) => [mark, mark])], settings.cycle || "")] : []),
  ];
  const notes = capture.trace ? capture.trace.notes.map((note) => `<p class="remark">${escaped(note)}</p>`).join("") : "";
  const close = '<button type="button" class="small close-capture">close the capture</button>';
  return `<form class="capture" aria-label="how the capture is read"><div class="fields">${fields.join(" ")} ${close}</div>${notes}${measured ? signalsOf(measured) : ""}</form>`;
}

function choiceOf(name, label, options, chosen) {
  const items = options.map(([value, text]) => `<option value="${escaped(value)}"${value === chosen ? " selected" : ""}>${escaped(text)}</option>`);
  return `<label>${label} <select name="${escaped(name)}">${items.join("")}</select></label>`;
}

function marksOf({ tracks }) {
  return tracks.flatMap(({ signals, marks }) => (signals.length ? marks.filter(({ what }) => what).map(({ event }) => event) : []));
}

/** Which signal is which lane, to be chosen otherwise. */
function signalsOf({ tracks, capture }) {
  const paths = [...new Set(capture.trace.signals.map(({ path }) => path))];
  const lines = tracks.map(({ title, signals, marks, over }) => {
    const taken = signals.map(({ path }) => path).join(", ");
    const none = taken && !capture.settings.signals[title] ? `${taken}${over ? `, by ${over}` : ""}` : "by its name";
    const choice = choiceOf(`signal ${title}`, "", [["", none], ...paths.map((path) => [path, path])], capture.settings.signals[title] || "");
    const said = signals.length ? marks.filter(({ what, times }) => !what || !times || !times.length).map(({ name }) => `${name} is not seen`) : ["no signal"];
    return `<tr><th scope="row"><span class="name">${escaped(title)}</span></th><td>${choice}</td><td>${escaped(said.join(", "))}</td></tr>`;
  });
  const missing = tracks.filter(({ signals }) => !signals.length).length;
  return `<details id="signals"${missing ? " open" : ""}><summary>which signal is which lane${missing ? `: ${missing} without one` : ""}</summary><table>${lines.join("")}</table></details>`;
}
