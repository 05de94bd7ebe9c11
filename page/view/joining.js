// Joins what was picked in the drawings: two marks by an edge, and two lanes of a board by a net.

import { addNet, addWire, netDrivenBy, partsOfSheet } from "../core/board.js";
import { addEdge, laneName, placeOfMark } from "../core/edits.js";
import { EdgeForm } from "./edge_form.js";
import { NetForm } from "./net_form.js";

const NOT_NOW = "the text of this file can't be edited now";

export class Joining {
  /** `forms` are the elements of the form of an edge and of that of a net. `page` has `readOf(file)`, `board()`, which is what was read of the netlist whose
   * drawings are shown or null, `change(file, edit, fault)`, `say(text)` and `unit()`. `onChange` is called when something else is picked. */
  constructor(forms, page, onChange) {
    this.page = page;
    this.onChange = onChange;
    /** What was picked first: a mark or a lane of a file.
     * @type {any} */
    this.picked = null;
    this.edgeForm = new EdgeForm(forms.edge, () => this.unpick());
    this.netForm = new NetForm(forms.net, () => this.unpick());
  }

  unpick() {
    this.picked = null;
    this.onChange();
  }

  /** Closes a form that is open. */
  close() {
    for (const form of [this.edgeForm, this.netForm]) if (form.asked) form.close();
  }

  /** Picks a mark. The second one that is picked begins an edge from the first to it; the same one again begins one from the mark to itself in a later cycle. */
  pickMark(file, mark) {
    const first = this.picked && this.picked.mark !== undefined ? this.picked : null;
    if (first && (first.file === file || this.page.board())) this.joinMarks(first, { file, mark });
    else {
      this.picked = { file, mark };
      this.page.say(`mark ${mark} is picked: pick another one to join them, or the same one for its next cycle; Delete takes it away, and a double click renames it`);
    }
    this.onChange();
  }

  /** Picks a lane of a board. The second one that is picked begins a net from the first to it. */
  pickLane(file, lane) {
    const first = this.picked && this.picked.lane !== undefined ? this.picked : null;
    if (first) this.joinLanes(first, { file, lane });
    else {
      this.picked = { file, lane };
      this.page.say("this lane drives: now click the lane that it drives, of another part");
    }
    this.onChange();
  }

  /** The names of the parts of a sheet; none where no board is shown. */
  partsOf(file) {
    const board = this.page.board();
    return board && board.value ? partsOfSheet(board, file) : [];
  }

  joinMarks(first, second) {
    const [start, end] = [first, second].map((picked) => this.endOfMark(picked));
    if (!start || !end) return;
    const take = (text, isOnBoard) => {
      if (isOnBoard) this.page.change(this.page.board().name, (read) => addWire(read, text), NOT_NOW);
      else this.page.change(first.file, (read) => addEdge(read, text), NOT_NOW);
    };
    this.page.say("");
    this.edgeForm.open({ start, end, unit: this.page.unit(), take });
  }

  endOfMark({ file, mark }) {
    const read = this.page.readOf(file);
    const place = read && read.value ? placeOfMark(read, mark) : null;
    return place && { mark, file, title: laneName(read, place.lane) || "", parts: this.partsOf(file) };
  }

  joinLanes(first, second) {
    const [start, end] = [first, second].map((picked) => this.endOfLane(picked));
    const isOnePart = start && end && first.file === second.file && start.parts.length < 2;
    if (!start || !end || isOnePart) {
      this.unpick();
      this.page.say("a net joins lanes with names, of two parts");
      return;
    }
    this.page.say("");
    this.netForm.open({ start, end, unit: this.page.unit(), take: (net) => this.addNet(net) });
  }

  endOfLane({ file, lane }) {
    const read = this.page.readOf(file);
    const title = read && read.value ? laneName(read, lane) : "";
    const parts = this.partsOf(file);
    return title && parts.length ? { title, parts } : null;
  }

  addNet(net) {
    const board = this.page.board();
    const before = netDrivenBy(board, net.pins[0]);
    this.page.change(board.name, (read) => addNet(read, net), "these lanes are joined already");
    if (before !== null) this.page.say(`${net.pins[1]} is on the net ${before} now, with its delay`);
  }
}
