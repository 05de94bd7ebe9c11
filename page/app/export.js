// Handing a design on: a link, the page with the design in it, a page without scripts, and one diagram.

import { answerOf } from "../core/answer.js";
import { bodyOf, figureOf } from "../view/answer_pane.js";
import { fill } from "../view/fill.js";
import { asLink, inScript } from "../core/packing.js";
import { download } from "./download.js";
import { lastPart } from "../core/files.js";
import { svgFile } from "../draw/picture.js";
import { escaped, escapedText } from "../core/texts.js";

const SAVED = /(<script type="application\/json" id="saved">)[^]*?(<\/script>)/;

/** A name for a file that is saved, made of the name of the design. */
export function stemOf(name) {
  return lastPart(name || "design").replace(/\.json5?$/, "") || "design";
}

/** The page's own text with these files in it. `page` is the text of the page before it has changed itself. */
export function pageWith(page, packed) {
  return page.replace(SAVED, (match, open, close) => `${open}${inScript(packed)}${close}`);
}

/** The address of the page with these files in it. */
export async function linkWith(packed) {
  return `${location.href.replace(/#.*$/, "")}#design=${await asLink(packed)}`;
}

/** Saves the diagram of a bound as a file of SVG. */
export function saveDiagram(analysis, row, which) {
  download(`${stemOf(analysis.name)}.svg`, diagramFile(analysis, row, which), "image/svg+xml");
}

/** Saves the diagram of a bound as a picture of points, twice as fine as it is shown. */
export async function savePng(analysis, row, which) {
  const image = new Image();
  image.src = `data:image/svg+xml;charset=utf-8,${encodeURIComponent(diagramFile(analysis, row, which))}`;
  await image.decode();
  const canvas = document.createElement("canvas");
  canvas.width = 2 * image.naturalWidth;
  canvas.height = 2 * image.naturalHeight;
  const context = canvas.getContext("2d");
  context.scale(2, 2);
  context.drawImage(image, 0, 0);
  download(`${stemOf(analysis.name)}.png`, await new Promise((done) => canvas.toBlob(done, "image/png")), "image/png");
}

/** The text of such a file: the diagram of a bound of a row, which is as wide wherever it is saved. */
export function diagramFile(analysis, row, which) {
  const entry = analysis.entries.find((other) => other.row.number === row);
  const box = document.createElement("div");
  box.innerHTML = figureOf({ ...analysis, width: null, views: null, lanes: null, still: true }, entry, which);
  return svgFile(box.querySelector("svg").outerHTML, styleOfDiagrams(), document.getElementById("patterns").innerHTML.trim());
}

/** The part of the page's style that diagrams need. */
function styleOfDiagrams() {
  const style = document.getElementById("style").textContent.trim();
  return style.slice(0, style.indexOf("/* The page itself. */")).trim();
}

/** A page without scripts: what is answered, each diagram, and the files. `identity` says what it is a page of. */
export function stillPage(analysis, identity) {
  const { says } = answerOf(analysis.report, analysis.entries, analysis.unit);
  const box = document.createElement("div");
  box.innerHTML = bodyOf({ ...analysis, still: true });
  fillFigures({ ...analysis, width: null, views: null, still: true }, box, true);
  for (const button of box.querySelectorAll("button")) button.remove();
  for (const link of box.querySelectorAll("a.edge")) link.replaceWith(...link.childNodes);
  const files = analysis.reads.map((read) => `<details><summary>${escaped(read.name)}</summary><pre>${escapedText(read.text)}</pre></details>`);
  const title = escaped(analysis.name);
  const about = analysis.design.title ? `<p class="remark">${escaped(analysis.design.title)}</p>` : "";
  const patterns = `<svg class="patterns" width="0" height="0" aria-hidden="true"><defs>${document.getElementById("patterns").innerHTML}</defs></svg>`;
  return (
    '<!DOCTYPE html>\n<html lang="en">\n<head>\n<meta charset="utf-8">\n<meta name="viewport" content="width=device-width, initial-scale=1">\n' +
    `<meta name="color-scheme" content="light dark">\n<title>${title}</title>\n<style>${document.getElementById("style").textContent}</style>\n</head>\n` +
    `<body class="itv still">\n${patterns}\n<h1>${title}</h1>\n${about}<p class="answer"><b>${says}</b></p>\n<p class="remark">${identity}</p>\n` +
    `${box.innerHTML}\n<h2>The files</h2>\n${files.join("\n")}\n</body>\n</html>\n`
  );
}

/** Draws the figures of an element: all, or those that no folded part holds. A figure that is drawn already stays where it would be drawn the same. */
export function fillFigures(analysis, element, all = false) {
  for (const place of element.querySelectorAll(".later")) {
    if (!all && place.closest("details:not([open])")) continue;
    const entry = analysis.entries.find(({ row }) => row.number === Number(place.dataset.row));
    if (!entry) continue;
    const folds = [...place.querySelectorAll("details[id][open]")].map(({ id }) => id);
    if (fill(place, figureOf(analysis, entry, place.dataset.which))) for (const fold of place.querySelectorAll("details[id]")) fold.open = folds.includes(fold.id);
  }
}
