// ---- how much room the window has: columns, rows of memory, and what is drawn by measure, as the moments of the run

const PHONE = 700, THREE = 1180, FOUR = 1680, LOW = 740, LEAST_ROWS = 3, MOST_ROWS = 64; // pixels; rows of memory
const LABEL = 62, LEAST_WIDE = 80; // of the run the width of names, in letters of 14 pixels, and of lanes

export function windowNow() {
  const width = innerWidth;
  return { isPhone: width < PHONE, isLow: innerHeight < LOW, columns: width >= FOUR ? 4 : width >= THREE ? 3 : 2 };
}

// The sizes of the parts that are drawn by measure, as they are now.
export function roomNow() {
  const unit = parseFloat(getComputedStyle(document.documentElement).fontSize) / 14;
  const part = (selector) => document.querySelector(selector);
  const cells = part("#cells"), barrel = part('[data-room="barrel"]'), row = cells && cells.querySelector("tbody tr"),
    head = cells && cells.querySelector("thead");
  const rows = row ? Math.floor((cells.clientHeight - 6 - (head ? head.offsetHeight : 0)) / row.offsetHeight) : 16;
  const memoryRows = Math.max(LEAST_ROWS, Math.min(MOST_ROWS, rows));
  return { unit, timeline: part("#lanes")?.clientWidth, memory: cells?.clientWidth, memoryRows,
    barrel: barrel && barrel.clientWidth - 16, barrelHigh: barrel && barrel.clientHeight - 6 };
}

export const isSame = (one, other) => Object.keys(one).every((name) => one[name] === other[name]);

// The moments of the run and pixels.
export function scaleOf({ room, span: { from, to } }) {
  const unit = room.unit || 1, left = Math.round(LABEL * unit), width = Math.max(LEAST_WIDE, (room.timeline || 1200) - left - 8);
  const pixel = (moment) => left + ((moment - from) / (to - from)) * width, has = (moment) => moment >= from && moment < to;
  return { unit, left, width, from, to, pixel, has };
}

export function momentAt(state, x) {
  const { left, from, to, width } = scaleOf(state);
  return from + Math.floor(((x - left) / width) * (to - from));
}
