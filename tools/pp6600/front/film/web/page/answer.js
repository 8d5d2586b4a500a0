// ---- the answer to an exercise: its script, with the notes that name it, and how what a check writes differs from what is
// expected

import { linesIn, ofLines, scriptOf } from "../machine/lines.js";
import { four, range } from "../machine/places.js";
import { panelIn } from "./files.js";

export const NOTE = /^\* (EXERCISE|PANEL) /; // with which a session of an exercise begins
const MOST_MORE = 64; // lines beyond those that are expected which are put beside them
export const noteIn = (script, kind) => (new RegExp(`^\\* ${kind} (.*?)\\s*$`, "m").exec(script) || [])[1];

// A script of an exercise: the first line names it, and if the panel is the answer a second one has that.
export function noted({ name, files }, script, panel) {
  const words = files.panel ? panelIn(panel) : null;
  const notes = [`* EXERCISE ${name}`, ...(words ? [`* PANEL ${words.map(four).join(" ")}`] : [])];
  return ofLines([...notes, ...linesIn(script).filter((line) => !NOTE.test(line))]);
}

// The script of the answer at the moment that is shown, with the panel that is typed; undefined without an exercise.
export function answerShown({ exercises, exercise, film, panelText }, script = scriptOf(film.partsInEffect())) {
  const one = exercises.find(({ name }) => name === exercise);
  return one && noted(one, script, panelText);
}

// Whether the turns of an exercise belong to its answer.
export const makesTurns = ({ files }) => /^\s*STEP\b/im.test(files.script);

// The parts of a session that are judged.
export const judgedOf = (one, parts) =>
  parts.filter((part) => (typeof part === "number" ? makesTurns(one) : /^\s*(SET|DEADSTART)\b/i.test(part)));

// The parts without the turns beyond those of the exercise's own script; and how many these are.
export function withoutLater({ files }, parts) {
  const own = [...files.script.matchAll(/^\s*STEP\s+([0-7]+)/gim)].reduce((sum, [, count]) => sum + parseInt(count, 8), 0);
  let left = own, later = 0;
  const kept = parts.map((part) => {
    if (typeof part !== "number") return part;
    const count = Math.min(left, part);
    left -= count;
    later += part - count;
    return count;
  });
  return { parts: kept.filter((part) => part !== 0), later };
}

// What differs between the lines that are expected at the end, and those that the lines of a check have answered: pairs, of which
// one may be missing, each with the line of the check. They are put beside each other so that as many as can be are the same.
export function differences(wanted, lines, answers) {
  const written = answers.flatMap((answer, at) => answer.map((text) => ({ text, line: lines[at] })));
  const texts = written.map(({ text }) => text), end = texts.length - wanted.length;
  if (end >= 0 && wanted.every((text, at) => text === texts[end + at])) return [];
  const begin = Math.max(0, end - MOST_MORE);
  return pairsOf(wanted, texts.slice(begin)).map(([one, other]) => {
    const { text, line } = written[begin + other] ?? { line: written.at(-1)?.line };
    return { line, wanted: wanted[one], found: text };
  });
}

// The numbers of lines that differ, in pairs, from the end of both.
function pairsOf(wanted, texts) {
  const common = commonOf(wanted, texts), pairs = [];
  let one = wanted.length, other = texts.length, run = { wanted: [], found: [] };
  const close = () => {
    pairs.unshift(...range(Math.max(run.wanted.length, run.found.length)).map((at) => [run.wanted[at], run.found[at]]));
    run = { wanted: [], found: [] };
  };
  while (one || (other && run.found.length < run.wanted.length)) { // what was written before all that is expected does not count
    if (one && other && wanted[one - 1] === texts[other - 1]) {
      close();
      one--;
      other--;
    } else if (other && (!one || common[one][other - 1] >= common[one - 1][other])) run.found.unshift(--other);
    else run.wanted.unshift(--one);
  }
  close();
  return pairs;
}

// How many lines two beginnings have in common, one after the other: a row for each beginning of the first lines.
function commonOf(lines, others) {
  const rows = [new Uint16Array(others.length + 1)];
  for (const [at, line] of lines.entries()) {
    const before = rows[at], row = new Uint16Array(others.length + 1);
    others.forEach((text, index) => {
      row[index + 1] = text === line ? before[index] + 1 : Math.max(before[index + 1], row[index]);
    });
    rows.push(row);
  }
  return rows;
}
