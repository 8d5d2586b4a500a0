// ---- the machine's numbers in one row: the library's order of places, as pp6600.h has it, in the page and in its worker

export const PROCESSORS = 10, CHANNELS = 12, CLOCK = 12, CELLS = 4096, FRAME_WORDS = 16, WATCHES = 8, COLUMNS = 80;
export const HALF = 30; // a number of 60 bits is kept in halves

// The first place of each part; the clock is the last of the words. Behind the library's places come the upper halves of the
// numbers of 60 bits.
export const layout = {
  cells: 0, A: 40960, P: 40970, Q: 40980, phase: 40990, states: 41000, words: 41012, clock: 41024, frame: 41025, reader: 41041,
  printer: 41044, paper: 41047, slot: 106583, watches: 106584, central: 106592,
};

// Sets the parts that depend on the size of central memory. Returns how many numbers the row has.
export function setLayout(size) {
  const high = layout.central + size, end = high + FRAME_WORDS + size;
  Object.assign(layout, { size, high, end });
  KINDS.C.sizes = [size];
  placesKnown.clear();
  return end;
}

export const REGISTERS = [layout.P, layout.A, layout.Q, layout.phase];
export const register = (processor, index) => REGISTERS[index] + processor; // P, A, Q, phase

export const isFrame = (place) => place >= layout.frame && place < layout.reader;
export const isCentral = (place) => place >= layout.central && place < layout.high;
export const isWord = (place) => isFrame(place) || isCentral(place); // whether its number has 60 bits
export const isUpper = (place) => place >= layout.high && place < layout.end;
export const upperOf = (place) => layout.high + (isFrame(place) ? place - layout.frame : FRAME_WORDS + place - layout.central);
export const wordOfUpper = (place) => (place - layout.high < FRAME_WORDS ? layout.frame + place - layout.high
  : place - FRAME_WORDS - layout.size);
export const range = (count) => Array.from({ length: count }, (_, at) => at);
export const octal = (number, digits = 1) => number.toString(8).padStart(digits, "0");
export const two = (number) => octal(number, 2);
export const four = (number) => octal(number, 4);

// ---- the kinds of numbers with a name, by their first places: how many there are, how many digits they and indices have, and
// modes

export const KINDS = Object.fromEntries([
  ["M", layout.cells, [PROCESSORS, CELLS], [2, 4], 4], ["A", layout.A, [PROCESSORS], [2], 6], ["P", layout.P, [PROCESSORS], [2], 4],
  ["Q", layout.Q, [PROCESSORS], [2], 4], ["PHASE", layout.phase, [PROCESSORS], [2], 4],
  ["STATE", layout.states, [CHANNELS], [2], 1],
  ["H", layout.words, [CHANNELS + 1], [2], 4], ["XP", layout.frame, [FRAME_WORDS], [2], 20],
  ["CARD", layout.reader, [], [], 4], ["CARD-COLUMN", layout.reader + 1, [], [], 3],
  ["CARD-MODE", layout.reader + 2, [], [], 0, "reader"],
  ["SYMBOLS", layout.printer, [], [], 6], ["PAPER-COLUMN", layout.printer + 1, [], [], 3],
  ["PAPER-MODE", layout.printer + 2, [], [], 0, "printer"], ["SLOT", layout.slot, [], [], 2], ["C", layout.central, [], [6], 20],
].map(([kind, first, sizes, widths, digits, modes]) => [kind, { first, sizes, widths, digits, modes }]));
export const SETTABLE = ["M", "A", "P", "Q", "C", "H"]; // what a SET takes; what is watched, in the order of the codes of watches

// The place of a number by its kind and its indices.
export const placeOf = (kind, ...indices) =>
  KINDS[kind].first + indices.reduce((at, index, one) => at * KINDS[kind].sizes[one] + index, 0);
const nameWith = (kind, indices) => [kind, ...indices.map((index, at) => octal(index, KINDS[kind].widths[at]))].join(" ");

// The number that has a place, of 60 bits also that of its upper half; or null if it has no name.
export function placeAt(place) {
  const word = isUpper(place) ? wordOfUpper(place) : place;
  const [kind, { first, sizes }] = Object.entries(KINDS).findLast(([, one]) => one.first <= word);
  const last = sizes.at(-1), at = word - first, indices = [[], [at], [Math.floor(at / last), at % last]][sizes.length];
  return at < sizes.reduce((count, size) => count * size, 1) ? placeWith(kind, ...indices) : null;
}

// The name of the number at a place, as M 00 0106; "" of one that has none.
export const nameOf = (place) => (placeAt(place) || { name: "" }).name;

// A number of the machine by its kind and its indices: its name, and its places, of 60 bits that of the upper half first.
export function placeWith(kind, ...numbers) {
  const at = placeOf(kind, ...numbers), places = isWord(at) ? [upperOf(at), at] : [at];
  if (!placesKnown.has(at)) placesKnown.set(at, { kind, numbers, name: nameWith(kind, numbers), places });
  return placesKnown.get(at);
}

const placesKnown = new Map(); // by the places of their numbers

// The number with a name, as answers have it; null if there is none. A label of the processor may be in the place of an address.
export function placeIn(text, labels) {
  const [first, ...words] = text.trim().split(/\s+/), kind = first.toUpperCase(), sizes = KINDS[kind] ? KINDS[kind].sizes : [];
  const numbers = words.map((word, at) => (at ? addressIn(word, labels[octalIn(words[0])]) : octalIn(word)));
  const fits = (number, at) => number !== null && number < sizes[at];
  return KINDS[kind] && words.length === sizes.length && numbers.every(fits) ? placeWith(kind, ...numbers) : null;
}

export const octalIn = (word) => (/^[0-7]+$/.test(word) ? parseInt(word, 8) : null);

// An address by its octal digits or by a label, as START or START+3; or null.
export const addressIn = (word, labels) => (labels && labels.addresses[word]) ?? octalIn(word);

// The places that are watched, by the codes of the watch entries: the kind, and the processor and address.
export function watchesIn(numbers) {
  return [...numbers.subarray(layout.watches, layout.watches + WATCHES)].filter(Boolean).map((code) => {
    const kind = SETTABLE[Math.floor(code / 0o10000000) - 1], rest = code % 0o10000000;
    return kind === "M" ? rest : placeOf(kind, rest); // the rest of a cell's code is its place
  });
}

// ---- moments

// The kinds of a moment: what a processor did in a turn; another action; a BACK or FORWARD; turns that were not recorded.
export const IDLE = 0, WAITING = 1, BUSY = 2, BLOCK = 3, LINE = 4, JUMP = 5, SKIP = 6;

// What the page gets of the moments: the kind, and how many actions and turns are in effect after it; of a turn its processor;
// where its changes begin, each a place with the numbers before and after; and where its links begin, each two numbers. In what the
// recorder delivers the starts are those of the next moment.
export const ROWS = {
  kinds: Uint8Array, position: Int32Array, turn: Int32Array, processor: Uint8Array, starts: Uint32Array, places: Int32Array,
  was: Int32Array, now: Int32Array, linkStarts: Uint32Array, links: Int32Array,
};

// Returns the first of so many numbers from 0 on for which something no longer holds; it holds for all before.
export function firstNot(count, holds) {
  let low = 0, high = count;
  while (low < high) {
    const middle = (low + high) >> 1;
    if (holds(middle)) low = middle + 1;
    else high = middle;
  }
  return low;
}
