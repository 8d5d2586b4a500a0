// ---- what a turn wrote, and from what, by the links of the library. One is kept as two numbers: the place that is written, with
// bits that say how; and the place that is read, or -1

import { layout } from "./places.js";

// Operations and fields of pp6600.h.
const JOINED = 1, NO_WORD = 26, ZERO = 27, ONE = 28, THREE = 30, PUNCHED = 25;
export const AFTER = { one: 14, two: 15, five: 16 };
const FIRST = 2, PARTS = { 7: 0b1111, 8: 0b11 }, CONSTANTS = { 11: "word", 12: "d", 13: "m" };
const OPERATION = 19, FIELD = 24, PLACES = (1 << OPERATION) - 1, BY_DEVICE = 1 << 28, MORE = 1 << 29;

export const packed = (place, operation, field, isOfDevice, hasMore) =>
  place | (operation << OPERATION) | (field << FIELD) | (isOfDevice ? BY_DEVICE : 0) | (hasMore ? MORE : 0);
export const placeIn = (link) => link & PLACES;
const isP = (place) => place >= layout.P && place < layout.Q;

// The parts of a word that are read, a bit each from the left; 0 is all of it.
const partsOf = (field) => PARTS[field] || (field >= FIRST && field < FIRST + 5 ? 1 << (field - FIRST) : 0);

// What links say: each place that is written, with its sources, and the constant that it has, or "". A number is moved or computed;
// P is written at the end of a block from the return address.
export function writesIn(links, begin, end) {
  const found = [];
  for (let at = begin, one = null; at < end; at += 2) {
    const link = links[at], place = placeIn(link), source = links[at + 1], field = (link >> FIELD) & 0xf;
    one = one || { at, place, operation: (link >> OPERATION) & 0x1f, isOfDevice: (link & BY_DEVICE) !== 0, sources: [],
      constant: "" };
    if (source >= 0 && CONSTANTS[field]) one.constant += CONSTANTS[field];
    else if (source >= 0 && !isP(source)) one.sources.push({ place: source, parts: partsOf(field) });
    else if (source >= 0 && !isP(place)) one.constant = "return";
    if (link & MORE) continue;
    found.push(completed(one));
    one = null;
  }
  return found;
}

function completed(one) {
  const { place, operation, sources, constant } = one;
  const endsBlock = isP(place) && (operation === ONE || (operation === AFTER.one && sources.length > 0));
  const moves = operation <= JOINED || operation === NO_WORD || (operation >= ZERO && operation <= THREE) || constant === "return";
  const own = operation === NO_WORD ? "no word" : !sources.length && !constant ? "zero" : constant;
  return { ...one, isPunched: operation === PUNCHED, endsBlock, isMoved: moves && !endsBlock, constant: own };
}
