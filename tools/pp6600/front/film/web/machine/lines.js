// ---- lines of the console; parts of a session, which are lines and counts of turns; and bytes as the characters of a text

import { CELLS, PROCESSORS, octal, placeOf, range, register } from "./places.js";

export const bytesOfText = (text) => Uint8Array.from(text, (letter) => letter.charCodeAt(0) & 0xff);
export const linesIn = (text) => text.replace(/\n$/, "").split("\n").map((line) => line.replace(/\r$/, "")).slice(text ? 0 : 1);

export const MOST_TURNS = 0o1000000, LONGEST_ANSWER = 40; // of one STEP; lines of an answer that are shown
export const UNTIL = /^\s*(back\s+)?until\s+(.*)$/i; // a line of the page that is a search
export const wordsIn = (line) => line.trim().toUpperCase().split(/\s+/);
export const ofLines = (lines) => lines.map((line) => `${line}\n`).join("");
export const moveBy = (distance) => `${distance < 0 ? "BACK" : "FORWARD"} ${octal(Math.abs(distance))}`;

// Lines that make so many turns.
export const stepsOf = (turns) => (turns > MOST_TURNS ? [`STEP ${octal(MOST_TURNS)}`, ...stepsOf(turns - MOST_TURNS)]
  : turns ? [`STEP ${octal(turns)}`] : []);

// A line with blanks in the place of its tabs.
export const untabbed = (line) => line.split("\t").reduce((before, part) => before.padEnd((before.length >> 3) * 8 + 8) + part);

// ---- parts

const isTurns = (part) => typeof part === "number", sizeOf = (part) => (isTurns(part) ? part : 1);
export const scriptOf = (parts) => ofLines(parts.flatMap((part) => (isTurns(part) ? stepsOf(part) : [part])));
export const actionsIn = (parts) => parts.reduce((sum, part) => sum + sizeOf(part), 0);
export const turnsIn = (parts) => actionsIn(parts.filter(isTurns));

// Those between two positions, which count actions.
export function partsBetween(parts, from, to) {
  let end = 0;
  return parts.flatMap((part) => {
    const begin = end;
    end += sizeOf(part);
    if (end <= from || begin >= to) return [];
    return [isTurns(part) ? Math.min(end, to) - Math.max(begin, from) : part];
  });
}

// The position so many turns before another one, or 0.
export function turnsBefore(parts, position, turns) {
  let at = position, left = turns;
  for (const part of partsBetween(parts, 0, position).reverse()) {
    const passed = isTurns(part) ? Math.min(part, left) : 1;
    if (left) at -= passed;
    left -= isTurns(part) ? passed : 0;
  }
  return at;
}

// The places that a SET or a DEADSTART writes, each with the number of its word in the line; at a dead start that of the panel's
// word, or 0.
export function placesOfSetting([command, kind, ...words]) {
  const [first, address] = words.map((word) => parseInt(word, 8));
  if (command === "DEADSTART") return placesOfDeadStart();
  if (command !== "SET") return [];
  if (kind === "M") return words.slice(2).map((_, at) => [placeOf("M", first, (address + at) % CELLS), 5 + at]);
  if (kind === "H") return words.length > 2 ? [[placeOf("H", first), 5]] : [];
  return [[placeOf(kind, first), 4]];
}

function placesOfDeadStart() {
  const all = range(PROCESSORS), panel = range(0o16).map((at) => [at, at < 0o15 ? at : 0]);
  const registers = all.flatMap((n) => [0, 1, 2].map((index) => [register(n, index), 0]));
  return [...panel, ...all.slice(1).map((n) => [n * CELLS, 0]), ...registers];
}
