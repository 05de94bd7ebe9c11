// A design as it is drawn: parts, lanes, marks, edges and rows, read from the texts of a sheet or of a netlist.
//
// It is made of a design that the program has accepted, so nothing is refused here. Events and rows are made in the program's order, and whoever
// uses them compares them with those of its report. A sheet that the program refuses can be drawn alone: what has no right form is passed over.

const LABEL = /^@(lin|late|early|req|ask)(?:\+(\d+))?(?::(\w+))?(?: ([^]*))?$/;
const RANGE = /^(?:\[([^\] ]*)\]|\$(\w+))(?: ([^]*))?$/;

/** The text under a key; empty where it is missing or no text. */
function textIn(tree, key) {
  return typeof tree[key] === "string" ? tree[key] : "";
}

/** Whether a value is an object with keys. */
function isObject(value) {
  return value !== null && typeof value === "object" && !Array.isArray(value);
}

/** The elements of a list; none where it is not a list. */
function listOf(value) {
  return Array.isArray(value) ? value : [];
}

/** The two ends of a range, null for an open one; null where a value has not this form. */
function endsOf(list) {
  const isEnds = Array.isArray(list) && list.length === 2 && list.every((end) => end === null || Number.isSafeInteger(end));
  return isEnds ? { low: list[0], high: list[1] } : null;
}

/** A lane of a sheet: its outermost group, its name, what it is called, its wave, its marks as places and characters, and the texts of its bus values.
 *
 * A group is a number and a title; null where the lane is in none. A lane without a name that is alone in a group is called by the group's title. */
export class Lane {
  constructor(tree, group, title) {
    this.group = group;
    this.name = textIn(tree, "name");
    this.title = this.name || title;
    this.wave = textIn(tree, "wave");
    this.marks = [...textIn(tree, "node")].map((mark, place) => ({ place, mark })).filter(({ mark }) => mark !== "." && mark !== " ");
    const data = typeof tree.data === "string" ? tree.data.split(/\s+/).filter((text) => text) : listOf(tree.data);
    this.data = data.filter((text) => typeof text === "string");
  }
}

/** An edge: its whole text, its number, its marks, its shape, and of its label the kind, the cycles between the marks, the tag, the ends of the range and the note.
 *
 * `ends` are the two ends in picoseconds, null for an open one; it is null where the range is a parameter's, or where the label has none. */
export class Edge {
  constructor(text, number, start, end, shape, label) {
    this.text = text;
    this.number = number;
    this.start = start;
    this.end = end;
    this.shape = shape;
    this.label = label;
    const match = LABEL.exec(label);
    this.kind = match ? match[1] : null;
    this.shift = match ? Number(match[2] || 0) : 0;
    this.tag = (match && match[3]) || "";
    const rest = match ? match[4] || "" : "";
    const range = this.kind === "ask" ? null : RANGE.exec(rest);
    this.note = range ? range[3] || "" : rest;
    this.ends = range && range[1] !== undefined ? endsOf(range[1].split(",").map((word) => (word === "*" ? null : Number(word)))) : null;
    // A number with a name is called by it where the edge has no note.
    this.parameter = (range && range[2]) || "";
  }

  /** What the edge is called; empty where nothing names it. */
  get title() {
    return this.note.trim() || this.parameter;
  }

  /** Whether it is a question or a requirement in a cycle. */
  isRowIn(cycle) {
    return (this.kind === "req" || this.kind === "ask") && this.shift <= cycle;
  }
}

/** An edge of a sheet; its marks are the ends of the word before its first space. */
function sheetEdge(text, number) {
  const cut = text.indexOf(" ");
  const shape = cut < 0 ? text : text.slice(0, cut);
  return new Edge(text, number, shape.slice(0, 1), shape.slice(-1), shape.slice(1, -1), cut < 0 ? "" : text.slice(cut + 1));
}

/** An edge of a netlist: two marks and a label. */
function wireEdge(text, number) {
  const first = text.indexOf(" ");
  const second = first < 0 ? -1 : text.indexOf(" ", first + 1);
  if (second < 0) return new Edge(text, number, "", "", "", "");
  return new Edge(text, number, text.slice(0, first), text.slice(first + 1, second), "", text.slice(second + 1));
}

/** The lanes of a list, those of its groups among them, each with its outermost group. */
function lanesIn(signal, group = null) {
  return signal.flatMap((item, number) => {
    if (isObject(item)) return [new Lane(item, group, "")];
    if (!Array.isArray(item)) return [];
    const title = typeof item[0] === "string" ? item[0] : "";
    if (isOneNamed(item)) return [new Lane(item[1], group, title)];
    return lanesIn(item, group || { number, title });
  });
}

/** Whether a group is a title and one lane without a name. */
function isOneNamed(group) {
  const [title, lane] = group;
  return group.length === 2 && typeof title === "string" && isObject(lane) && !textIn(lane, "name");
}

/** The text of the head or of the foot; empty where it has none. */
function titleIn(tree, key) {
  return isObject(tree[key]) ? textIn(tree[key], "text") : "";
}

/** A sheet: its lanes in the order in which they are drawn, its edges, its speed grades, its head and foot, and how many bricks wide it is. */
export class Sheet {
  constructor(tree) {
    this.lanes = lanesIn(listOf(tree.signal));
    this.edges = listOf(tree.edge).map((text, number) => sheetEdge(String(text), number));
    this.grades = isObject(tree.itv_grades) ? tree.itv_grades : {};
    this.title = titleIn(tree, "head");
    this.foot = titleIn(tree, "foot");
    const ends = this.lanes.flatMap((lane) => [lane.wave.length, ...lane.marks.map(({ place }) => place + 1)]);
    this.bricks = Math.max(1, ...ends);
  }

  /** The ends of the range of an edge, whose parameters have their values in a speed grade. Null where it has none. */
  endsOf(edge, grade) {
    const values = Object.hasOwn(this.grades, grade) && isObject(this.grades[grade]) ? this.grades[grade] : {};
    return edge.parameter && Object.hasOwn(values, edge.parameter) ? endsOf(values[edge.parameter]) : edge.ends;
  }
}

/** Whether a tree of JSON is a netlist, and not a sheet. */
export function isNetlist(tree) {
  return isObject(tree) && Object.hasOwn(tree, "itv");
}

/** The names of the sheets that a netlist names, in the order in which its parts name them first. */
export function sheetNames(tree) {
  if (!isNetlist(tree)) return [];
  return [...new Set(listOf(tree.parts).filter(isObject).map((part) => textIn(part, "sheet")).filter((name) => name))];
}

/** A design. `treeOf` gives the tree of a sheet by its name. A sheet alone is one part `U` in one cycle. */
export class Design {
  constructor(tree, treeOf) {
    this.alone = !isNetlist(tree);
    this.parts = [];
    this.wires = [];
    this.nets = [];
    this.cycles = 1;
    this.title = titleIn(tree, "head");
    if (this.alone) this.parts.push({ name: "U", sheet: new Sheet(tree), file: null, grade: "" });
    else this.readNetlist(tree, treeOf);
    this.places = this.placesOfEvents();
  }

  readNetlist(tree, treeOf) {
    this.cycles = tree.cycles;
    const sheets = new Map(sheetNames(tree).map((name) => [name, new Sheet(treeOf(name))]));
    const gradeOf = (part) => (tree.itv === 2 ? textIn(part, "grade") : "");
    this.parts = tree.parts.map((part) => ({ name: part.name, sheet: sheets.get(part.sheet), file: part.sheet, grade: gradeOf(part) }));
    this.wires = listOf(tree.edges).map((text, number) => wireEdge(String(text), number));
    this.nets = listOf(tree.nets).map((net) => ({ name: textIn(net, "name"), pins: listOf(net.pins), ends: endsOf(net.delay) || { low: 0, high: 0 } }));
  }

  /** Where each event is drawn, by its name and in the program's order: its part, lane and cycle as numbers, its brick and its mark. */
  placesOfEvents() {
    const places = new Map();
    for (let cycle = 0; cycle < this.cycles; cycle++) {
      this.parts.forEach(({ name, sheet }, part) => {
        sheet.lanes.forEach((drawn, lane) => {
          for (const { place, mark } of drawn.marks) places.set(`${name}.${mark}@${cycle}`, { part, lane, cycle, brick: place, mark });
        });
      });
    }
    return places;
  }

  /** The rows in the program's order: the edge of each, the number of its part (null for an edge of the netlist), its cycle and its events. */
  rows() {
    const rows = [];
    for (let cycle = 0; cycle < this.cycles; cycle++) {
      const add = (edges, part, prefix) => {
        for (const edge of edges) {
          const [start, end] = [`${prefix}${edge.start}@${cycle - edge.shift}`, `${prefix}${edge.end}@${cycle}`];
          if (edge.isRowIn(cycle)) rows.push({ edge, part, cycle, start, end });
        }
      };
      this.parts.forEach(({ name, sheet }, part) => add(sheet.edges, part, `${name}.`));
      add(this.wires, null, "");
    }
    return rows;
  }

  /** How a lane is called: with the name of its part in a netlist. */
  laneTitle(part, lane) {
    const { name, sheet } = this.parts[part];
    const title = sheet.lanes[lane].title || `lane ${lane}`;
    return this.alone ? title : `${name}.${title}`;
  }

  /** How an event is called: its lane and its mark, and its cycle where there are several. */
  eventTitle(event) {
    const place = this.places.get(event);
    return `${this.laneTitle(place.part, place.lane)} ${place.mark}${this.cycles > 1 ? ` in cycle ${place.cycle}` : ""}`;
  }

  /** The number of a part; -1 where there is none of this name. */
  partNumber(name) {
    return this.parts.findIndex((part) => part.name === name);
  }

  /** An edge of a part's sheet, by the part's name; of the netlist where that is null. Undefined where there is none. */
  edge(part, number) {
    if (part === null) return this.wires[number];
    const found = this.parts[this.partNumber(part)];
    return found && found.sheet.edges[number];
  }

  /** What draws a rule, in a few words. `end` is an event that the rule is about. */
  originTitle(origin, end) {
    const edge = this.edgeOf(origin, end);
    if (edge) return edge.title || origin.note || (origin.kind === "edge" ? edge.text.split(" ")[0] : origin.text);
    if (origin.kind === "net" && this.nets[origin.number]) return this.nets[origin.number].name || origin.note || origin.text;
    if (origin.kind === "lane") return `order on ${this.laneTitle(this.partNumber(end.split(".")[0]), origin.number)}`;
    return origin.note || origin.text;
  }

  /** The edge that an origin names; undefined where it names none. */
  edgeOf(origin, end) {
    if (origin.kind === "wire") return this.wires[origin.number];
    return origin.kind === "edge" ? this.edge(end.split(".")[0], origin.number) : undefined;
  }

  /** Where a rule is drawn, in the text of its edge, or the lane or net in words. */
  originText(origin, end) {
    const edge = this.edgeOf(origin, end);
    if (edge) return edge.text;
    if (origin.kind === "lane") return `the order of the marks on ${this.laneTitle(this.partNumber(end.split(".")[0]), origin.number)}`;
    const net = this.nets[origin.number];
    return net ? `net ${net.name || origin.number}: ${net.pins.filter((pin) => typeof pin === "string").join(" ")}` : origin.text;
  }
}
