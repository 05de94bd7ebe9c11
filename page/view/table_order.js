// How the lines of the table are put in order by one of its columns.

/** What a column sorts by. A margin that is not known, or that no number alone mends, comes last. */
const VALUES = {
  name: (line) => line.name.toLowerCase(),
  between: (line) => `${line.from} ${line.to}`.toLowerCase(),
  kind: (line) => line.kind,
  low: (line) => (line.low === null ? -Infinity : line.low),
  high: (line) => (line.high === null ? Infinity : line.high),
  room: (line) => (line.room === null ? (line.isUseless ? 1.7e308 : Infinity) : line.room === Infinity ? 1e308 : line.room),
};

/** A function that compares two lines by a column. */
export function comparedBy(id) {
  const value = VALUES[id];
  return (a, b) => {
    const [first, second] = [value(a), value(b)];
    return first < second ? -1 : first > second ? 1 : 0;
  };
}
