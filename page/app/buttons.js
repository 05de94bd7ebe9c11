// The buttons and menus of the page, clicks on parts of the answer, and dropped files.

import { NEW_SHEET, lastPart } from "../core/files.js";
import { csvOf, markdownOf } from "../view/since.js";
import { chosenIn } from "../view/lane_choice.js";
import { fillFigures, linkWith, pageWith, saveDiagram, savePng, stemOf, stillPage } from "./export.js";
import { askFor } from "../view/field.js";
import { byId } from "./elements.js";
import { download } from "./download.js";

export class Buttons {
  constructor(app) {
    this.app = app;
    this.acts = [];
  }

  listen() {
    const on = (id, act) => byId(id).addEventListener("click", () => act());
    on("new", () => this.app.open({ design: "sheet.json", files: { "sheet.json": NEW_SHEET } }));
    on("open", () => byId("picker").click());
    on("save", () => this.save());
    on("save-strict", () => this.saveStrict());
    on("link", () => this.copyLink());
    on("save-page", () => download(`${stemOf(this.app.files.design)}.html`, pageWith(this.app.page, this.app.files.packed()), "text/html"));
    on("save-still", () => this.saveStill());
    on("put-back", () => this.app.draft.putBack());
    on("keep", () => this.app.compare.keep());
    on("older", () => byId("older-picker").click());
    on("markdown", () => this.copyMarkdown());
    on("csv", () => this.saveCsv());
    on("stop", () => this.app.runner.end());
    on("as-design", () => this.app.makeDesign());
    on("rename", () => this.rename());
    on("close", () => this.app.closeFile());
    byId("picker").addEventListener("change", (event) => this.app.take(event.target.files).then(() => (event.target.value = "")));
    byId("older-picker").addEventListener("change", (event) => this.app.compare.withOlder(event.target.files).then(() => (event.target.value = "")));
    byId("examples").addEventListener("change", (event) => this.app.chooseExample(event.target.value));
    byId("job").addEventListener("toggle", () => this.app.analysis && fillFigures(this.app.analysis, byId("job")), true);
    document.addEventListener("keydown", (event) => this.key(event));
    this.listenToClicks();
    this.listenToDrops();
    window.addEventListener("resize", () => this.app.resized());
    window.addEventListener("beforeunload", (event) => this.app.draft.isLost && event.preventDefault());
  }

  listenToDrops() {
    document.addEventListener("dragover", (event) => {
      event.preventDefault();
      document.body.classList.add("dropping");
    });
    document.addEventListener("dragleave", (event) => event.relatedTarget || document.body.classList.remove("dropping"));
    document.addEventListener(
      "drop",
      (event) => {
        document.body.classList.remove("dropping");
        if (!event.dataTransfer.files.length) return;
        event.preventDefault();
        event.stopPropagation();
        const isOlder = event.target instanceof Element && event.target.closest("#answer-tools");
        if (isOlder) this.app.compare.withOlder(event.dataTransfer.files);
        else this.app.take(event.dataTransfer.files);
      },
      true,
    );
  }

  /** Lets a click on an element that a selector finds do something. Of the acts that fit a click the one that was given first is done. */
  when(selector, act) {
    this.acts.push([selector, act]);
  }

  /** What a click on a part of the answer or of a drawing does. */
  listenToClicks() {
    const { app } = this;
    this.when("[data-edge]", (edge) => app.goTo(edge.dataset.file, Number(edge.dataset.edge)));
    this.when("[data-net]", (net) => app.goToNet(Number(net.dataset.net)));
    this.when("#to-fault", () => app.goToFault());
    this.when('a[href^="#row-"]', (row) => this.openRow(row.getAttribute("href").slice(1)));
    this.when("button.save-diagram", ({ dataset }) => saveDiagram(app.analysis, Number(dataset.row), dataset.which));
    this.when("button.kept-back", () => app.compare.putBack());
    this.when("button.kept-drop", () => app.compare.take(null));
    this.when("button.unfold", ({ dataset }) => app.answers.unfold(Number(dataset.row)));
    this.when("button.save-png", ({ dataset }) => savePng(app.analysis, Number(dataset.row), dataset.which));
    this.when("button.save-raw", () => this.saveRaw());
    this.when("button.open-redraw", () => app.openRedraw());
    this.when("button.lanes-back", () => app.answers.chooseLanes(null));
    byId("job").addEventListener("change", (event) => {
      const choice = event.target.closest(".lane-choice");
      if (choice) app.answers.chooseLanes(chosenIn(choice));
      if (event.target.closest("form.capture")) app.measuring.take(event.target);
    });
    byId("job").addEventListener("submit", (event) => event.preventDefault());
    this.when("button.draw-run", ({ dataset }) => app.measuring.draw(Number(dataset.line)));
    this.when("button.close-capture", () => app.measuring.close());
    this.when("button.run-job", () => app.answers.runShown());
    document.addEventListener("click", (event) => this.click(event));
  }

  click(event) {
    for (const [selector, act] of this.acts) {
      const element = event.target.closest(selector);
      if (!element) continue;
      if (element.getAttribute("href") === "#") event.preventDefault();
      act(element);
      break;
    }
    const isInMenu = event.target.closest(".menu") && !event.target.closest("button");
    if (!isInMenu) for (const menu of document.querySelectorAll(".menu[open]")) menu.removeAttribute("open");
  }

  /** Ctrl-S saves the file that is shown, and not the page of the browser. */
  key(event) {
    if (!(event.ctrlKey || event.metaKey) || event.key.toLowerCase() !== "s") return;
    event.preventDefault();
    this.save();
  }

  openRow(id) {
    const row = byId(id);
    if (!row) return;
    row.open = true;
    const others = row.closest("details.alike");
    if (others) others.open = true;
  }

  saveRaw() {
    download(`${stemOf(this.app.files.design)}.${this.app.answers.job}`, this.app.analysis.texts.get(this.app.answers.job).text, "text/plain");
  }

  save() {
    const file = this.app.files.find(this.app.current);
    if (!file) return;
    download(lastPart(file.name), file.saved, "application/json");
    file.changed = false;
    this.app.draft.keep();
    this.app.showFileTabs();
    this.app.say(`saved as ${lastPart(file.name)}`);
  }

  /** Saves the shown file in strict JSON, as the program reads it. */
  saveStrict() {
    const read = this.app.files.readOf(this.app.current);
    if (read && read.strict !== null) download(lastPart(read.name), read.strict, "application/json");
    else this.app.say("This file is neither JSON nor JSON5");
  }

  async copyLink() {
    const link = await linkWith(this.app.files.packed());
    try {
      await navigator.clipboard.writeText(link);
      this.app.say("The link is copied");
    } catch {
      location.hash = link.slice(link.indexOf("#"));
      this.app.say("The link is in the address bar");
    }
  }

  async copyMarkdown() {
    const { analysis } = this.app;
    if (!analysis || !analysis.report) return;
    const text = markdownOf(analysis, byId("sentence").innerText.trim());
    try {
      await navigator.clipboard.writeText(text);
      this.app.say("The answer is copied");
    } catch {
      download(`${stemOf(analysis.name)}.md`, text, "text/markdown");
    }
  }

  saveCsv() {
    const { analysis } = this.app;
    if (analysis && analysis.report) download(`${stemOf(analysis.name)}.csv`, csvOf(analysis), "text/csv");
  }

  saveStill() {
    if (!this.app.analysis || !this.app.analysis.report) {
      this.app.say("there is no answer to save");
      return;
    }
    download(`${stemOf(this.app.files.design)}-still.html`, stillPage(this.app.analysis, this.app.answers.identity || ""), "text/html");
  }

  rename() {
    askFor(byId("rename"), "the name of the file", this.app.current, (name) => this.app.rename(name));
  }
}
