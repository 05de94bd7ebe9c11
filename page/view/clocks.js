// The fastest clocks of a design, from the margins of its periods.

import { escaped, inUnit } from "../core/texts.js";

const PICOSECONDS_OF_A_MEGAHERTZ = 1e6;

/** A period as a frequency with four digits. It is rounded, so it is said to be about so much where it is shown. */
function frequency(period) {
  return `${Number((PICOSECONDS_OF_A_MEGAHERTZ / period).toPrecision(4))} MHz`;
}

/** For each period that is one number, what job margin says that it may be, as a part of a page. */
export function clocksOf(lines, unit) {
  return lines.filter((line) => line.isPeriod && line.margins.down && line.margins.down.by !== null).map((line) => clockOf(line, unit)).join("");
}

function clockOf(line, unit) {
  const [period] = line.margins.down.mayBe;
  if (period <= 0) return "";
  const cycles = line.shift > 1 ? ` for ${line.shift} cycles` : "";
  const clock = line.shift > 1 ? "" : `about ${frequency(period)}, `;
  const now = line.shift > 1 ? inUnit(line.low, unit) : `${frequency(line.low)}, ${inUnit(line.low, unit)}`;
  return `<p>Fastest clock for <b>${escaped(line.name)}</b>: <b>${clock}a period of ${inUnit(period, unit)}${cycles}</b> (now ${now}).</p>`;
}
