// ---- memory as instructions: rows of one or two words

import { CELLS } from "./places.js";

const FROM_BEFORE = 8; // more cells before a window, so that its rows begin where the instructions do

// So many instructions of a processor from an address on. At a head another one begins, so that no second word is taken from there.
export function rowsFrom(film, n, first, count, heads) {
  const rows = [];
  for (let address = (first + CELLS) % CELLS; rows.length < count;) {
    const word = film.cell(n, address), second = (address + 1) % CELLS;
    const hasTwo = film.about.instructions[word >> 6].words === 2 && !heads.includes(second);
    rows.push({ address, words: hasTwo ? [word, film.cell(n, second)] : [word] });
    address = (address + rows.at(-1).words.length) % CELLS;
  }
  return rows;
}

// The first address of so many rows with an address in one of them: as it is if it is there, else so that some rows come before it.
export function topWith(film, n, top, address, count, heads) {
  const hasIt = (one) => (address - one.address + CELLS) % CELLS < one.words.length, before = Math.floor(count / 3);
  if (rowsFrom(film, n, top, count, heads).some(hasIt)) return top;
  const more = rowsFrom(film, n, address - 2 * before - FROM_BEFORE, 2 * before + FROM_BEFORE + count, heads);
  return more[more.findIndex(hasIt) - before].address;
}

// Where other rows begin: at P, at the instruction of a block transfer, and where this goes on.
export function headsOf(film, n) {
  const { p, phase, address, cell } = film.next(n);
  return [p, ...(phase && address !== null ? [address] : []), ...(phase ? [(cell(0) + 1) & 0o7777] : [])];
}
