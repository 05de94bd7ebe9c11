// The parts of a board: a part is added with a sheet of its own, and a sheet alone becomes a board of two.

import { addPart, boardText, isFreeName, nameForSheet, partsIn } from "../core/board.js";
import { isNetlist } from "../core/design.js";
import { NEW_SHEET } from "../core/files.js";

const BAD_NAME = "a part's name has 1 to 16 letters, digits or _, and no other part has it";

export class Parts {
  /** `app` has the files. */
  constructor(app) {
    this.app = app;
  }

  /** What was read of the netlist that is shown, or else of the design if it is one; null where neither is a netlist. */
  get board() {
    const { files, current } = this.app;
    for (const name of [current, files.design]) {
      const read = files.find(name) ? files.readOf(name) : null;
      if (read && read.value && isNetlist(read.tree)) return read;
    }
    return null;
  }

  /** What was read of the netlist whose drawings are shown; null where a sheet is shown. */
  get shownBoard() {
    const { board } = this;
    return board && board.name === this.app.current ? board : null;
  }

  /** Adds a part to the netlist, or makes one of the design, which is a sheet, and the new part, as one step. The part's sheet is begun if there is none of its
   * name. */
  add(name) {
    const { board } = this;
    const first = this.app.files.design;
    const others = board ? partsIn(board).map((part) => part.name) : [nameForSheet(first)];
    if (!isFreeName(name, others)) {
      this.app.say(BAD_NAME);
      return;
    }
    const sheet = sheetBeside(board ? board.name : first, name);
    this.app.edited.together(() => {
      if (!this.app.files.find(sheet)) this.app.edited.begin(sheet, NEW_SHEET);
      if (board) this.app.edited.change(board.name, addPart(board, name, sheet));
      else this.app.edited.begin(this.nameOfBoard(), boardText([[nameForSheet(first), first], [name, sheet]]), { isDesign: true });
    });
    this.app.showFile(board ? board.name : this.app.files.design);
    this.app.begin();
    this.app.say(`part ${name} has the sheet ${sheet}`);
  }

  /** The name of a new netlist, which is beside the design, and which no file has. */
  nameOfBoard() {
    const { files } = this.app;
    const folder = files.design.slice(0, files.design.lastIndexOf("/") + 1);
    let name = `${folder}board.json`;
    for (let count = 2; files.find(name); count++) name = `${folder}board${count}.json`;
    return name;
  }
}

/** The name of the sheet of a new part, which is beside a file. */
function sheetBeside(file, part) {
  return `${file.slice(0, file.lastIndexOf("/") + 1)}${part.toLowerCase()}.json`;
}
