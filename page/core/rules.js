// The rules that the edges and nets of a design draw, as the program joins them: the late edges to one mark with one tag are one rule with several causes, and so are
// the early ones. The order of the marks on a lane is no rule here.

/** A cause of a rule: a mark with its part, so many cycles before, with the ends of its range in picoseconds, null for an open one. `origin` is what draws it.
 * @typedef {{ mark: string, shift: number, low: number | null, high: number | null, origin: { kind: string, number: number, note: string, text: string } }} Cause */
/** A rule: its kind, the mark that it is about, its causes, and what it is called.
 * @typedef {{ kind: string, mark: string, causes: Cause[], title: string }} Rule */
/** A rule in a cycle: the event that it is about, and the events of its causes.
 * @typedef {{ kind: string, end: string, causes: { event: string, low: number | null, high: number | null, origin: any }[] }} Constraint */

/** All rules of a design: those of its parts, of its nets and of the netlist's edges.
 * @param {import("./design.js").Design} design
 * @returns {Rule[]} */
export function rulesOf(design) {
  const isShared = (part) => design.parts.some((other) => other !== part && other.file === part.file);
  const ofParts = design.parts.flatMap((part) => {
    const drawn = part.sheet.edges.map((edge) => causeOf(edge, `${part.name}.`, "edge", part.sheet.endsOf(edge, part.grade)));
    return rulesIn(drawn, isShared(part) ? ` of ${part.name}` : "");
  });
  return [...ofParts, ...rulesOfNets(design), ...rulesIn(design.wires.map((edge) => causeOf(edge, "", "wire", edge.ends)), "")];
}

/** An edge as a cause; null where it is no rule. */
function causeOf(edge, prefix, kind, ends) {
  if (!["lin", "late", "early"].includes(edge.kind) || !ends) return null;
  const origin = { kind, number: edge.number, note: edge.note, text: `${kind} ${edge.number}` };
  return { edge, target: `${prefix}${edge.end}`, cause: { mark: `${prefix}${edge.start}`, shift: edge.shift, ...ends, origin } };
}

/** The rules of edges that are causes, each where its first edge is. */
function rulesIn(drawn, whose) {
  const rules = new Map();
  for (const { edge, target, cause } of drawn.filter((each) => each)) {
    const key = edge.kind === "lin" ? `${edge.number}` : `${edge.kind} ${target} ${edge.tag}`;
    const name = edge.title || edge.text.split(" ")[0];
    const rule = rules.get(key) || rules.set(key, { kind: edge.kind, mark: target, causes: [], names: [] }).get(key);
    rule.causes.push(cause);
    rule.names.push(name);
  }
  return [...rules.values()].map(({ kind, mark, causes, names }) => ({ kind, mark, causes, title: `${[...new Set(names)].join(", ")}${whose}` }));
}

/** The rules of nets: from each mark of the lane that drives to the mark of the same number of each other lane. */
function rulesOfNets(design) {
  return design.nets.flatMap((net, number) => {
    const [driver, ...others] = net.pins.map((pin) => marksOfPin(design, pin));
    const origin = { kind: "net", number, note: net.name, text: `net ${number}` };
    return others.flatMap((marks) =>
      marks.flatMap((mark, place) => {
        const from = driver[place];
        return from === undefined ? [] : [{ kind: "lin", mark, causes: [{ mark: from, shift: 0, ...net.ends, origin }], title: `${net.name || `net ${number}`}, ${from} to ${mark}` }];
      }),
    );
  });
}

/** The marks of the lane of a pin, with the name of their part. */
function marksOfPin(design, pin) {
  const [name, title] = [String(pin).split(".")[0], String(pin).slice(String(pin).indexOf(".") + 1)];
  const part = design.parts[design.partNumber(name)];
  const lane = part && part.sheet.lanes.find((other) => other.name === title);
  return lane ? lane.marks.map(({ mark }) => `${name}.${mark}`) : [];
}

/** A rule in each of so many cycles in which all its causes exist.
 * @param {Rule} rule
 * @param {number} cycles
 * @returns {Constraint[]} */
export function constraintsOf({ kind, mark, causes }, cycles) {
  const first = Math.max(...causes.map(({ shift }) => shift));
  const inCycle = (cycle) => ({ kind, end: `${mark}@${cycle}`, causes: causes.map(({ mark: from, shift, low, high, origin }) => ({ event: `${from}@${cycle - shift}`, low, high, origin })) });
  return Array.from({ length: Math.max(cycles - first, 0) }, (_, number) => inCycle(first + number));
}
