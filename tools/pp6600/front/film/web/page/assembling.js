// ---- the assembler of the page: what is typed as words, messages and a listing, the lines that load it, and what the page knows
// of it

import { untabbed } from "../machine/lines.js";
import { CELLS, octal } from "../machine/places.js";
import { Assembler } from "../engine/library.mjs";

const WRITTEN = { COMPLAINTS: 0, LISTING: 2, LINES: 3, NAMES: 4, UNITS: 6 }; // the forms of pp6600_assemble
const WORDS_OF_LINE = 8; // of a SET line
const NEAR = 0o77; // how far after a label that has no word, as that of a buffer, an address without one is named by it
const LJM = 0o0100, RJM = 0o0200; // without an index
export const NEW_SOURCE =
  "          BASE   OCTAL\n          ORG    100\n START    LDN    0\n          UJN    *\n          END    START\n";

const linesOf = (text) => text.replace(/\n$/, "").split("\n");

// A row of the listing that has words: the number of the source's line, its location, its origin, its words.
function rowOfWords(text) {
  const [number, location, origin, ...words] = text.split(" ").map((digits) => parseInt(digits, 8));
  return { number, location: location % CELLS, origin: origin % CELLS, words };
}

// A message with its line and column. The library counts bytes, and the page letters; and here a folder can't be named.
function messageOf(message, isFault, lines) {
  const [, at, column, text] = /^(\d+):(\d+): (.*)$/s.exec(message), line = Number(at);
  const before = new TextEncoder().encode(lines[line - 1] ?? "").subarray(0, column - 1);
  return { line, column: new TextDecoder().decode(before).length + 1, isFault,
    text: text.replace(/^the folder of common decks has no (\S+)|^(\S+) is a common deck: name the folder .* --text DIR/, (_, ...names) =>
      `${names[0] ?? names[1]} is a common deck: drop it on the editor`) };
}

// The names of the common decks that lines read.
function decksIn(text) {
  const reads = text.toUpperCase().split("\n").filter((line) => /^\*CALL\s|\sXTEXT\s/.test(line));
  return reads.flatMap((line) => line.split(/\s+/));
}

// The lines that load the first program of the lines of UNITS into processor n.
function setLines(lines, n) {
  const end = lines.findIndex((line) => line.startsWith("IDENT ")), own = end < 0 ? lines : lines.slice(0, end), runs = [];
  for (const [first, word] of own.map((line) => line.split(" ")).filter(([first]) => first !== "P")) {
    const address = parseInt(first, 8), run = runs.at(-1), isNext = run && run.address + run.words.length === address;
    if (isNext && run.words.length < WORDS_OF_LINE) run.words.push(octal(parseInt(word, 8)));
    else runs.push({ address, words: [octal(parseInt(word, 8))] });
  }
  const start = own.filter((line) => line.startsWith("P ")).map((line) => `SET P ${n} ${octal(parseInt(line.slice(2), 8))}`);
  return [...runs.map(({ address, words }) => `SET M ${n} ${octal(address)} ${words.join(" ")}`), ...start];
}

export class Assembling {
  // The texts that were dropped on the editor, by the names of their files.
  constructor(calls, texts = []) { Object.assign(this, { assembler: new Assembler(calls), texts: new Map(texts) }); }

  // The texts for the library: those that a line reads by their names are common decks, and the others are system texts.
  textsFor(source) {
    const read = new Set([source, ...this.texts.values()].flatMap(decksIn));
    return [...this.texts].map(([file, text]) => {
      const whole = file.toUpperCase(), deck = [whole, whole.split(".")[0]].find((name) => read.has(name));
      return [deck ?? `SYSTEM ${file.replaceAll("\n", " ")}`, text];
    });
  }

  written(text, form) { return this.assembler.written("assemble_with", text, form, this.textsFor(text)); }

  // Returns the messages of a source, and the rows with words if nothing is wrong.
  assembled(text) {
    const lines = linesOf(text), { lines: complaints, faults } = this.written(text, WRITTEN.COMPLAINTS);
    const messages = complaints.map((line, at) => messageOf(line, at < faults, lines));
    if (faults) return { messages, rows: [], listing: "" };
    return { messages, rows: this.written(text, WRITTEN.LINES).lines.map(rowOfWords),
      listing: this.written(text, WRITTEN.LISTING).lines.join("\n") };
  }

  // The words of one line of a source at an address, with the numbers that its names have. An error says what is wrong with it.
  wordsAt(address, line, names = {}) {
    const numberOf = (word, at) => (at && Object.hasOwn(names, word) ? octal(names[word]) : word); // the operation is no name
    const inNumbers = line.replace(/[^\s,+*/-]+/g, numberOf);
    const lines = ["BASE OCTAL", `ORG ${octal(address)}`, inNumbers, "END"].map((one) => one.padStart(one.length + 10));
    const { messages, rows } = this.assembled(lines.join("\n"));
    const wrong = messages.find(({ isFault }) => isFault)?.text ?? (rows.length ? null : `${line} makes no words`);
    if (wrong) throw new Error(wrong);
    return rows.flatMap(({ words }) => words);
  }

  loadLines(text, n) { return setLines(this.written(text, WRITTEN.UNITS).lines, n); }
  labelsOf(text, rows) { return tablesOf(linesOf(text), rows, this.written(text, WRITTEN.NAMES).lines); }
}

// A source as a film knows it, from its text and its rows.
export const sourceOf = (name, text, rows) => ({ name, lines: linesOf(text).map(untabbed),
  rows: rows.map(({ number, location, origin, words }) => [number, location, origin, ...words]) });

// The names of addresses, the numbers of names, the texts of lines by their addresses, and the jumps back of subroutines.
function tablesOf(lines, rows, names) {
  const found = (text) => /^(?!Z\.[0-7]{4})(\S+)( =)? ([0-7]+)$/.exec(text); // not those of LOCAL, which are a macro's own
  const all = names.map(found).filter(Boolean)
    .map(([, name, equals, digits]) => ({ name, isLabel: !equals, number: parseInt(digits, 8) }));
  const byNumber = (some) => new Map(some.map(({ name, number }) => [number, name]).reverse());
  const labels = all.filter(({ isLabel }) => isLabel);
  const isThere = (name, at) => labels.some((one) => one.name === name && one.number === at);
  const exits = labels.filter(({ name, number }) => isThere(`${name}X`, number - 1)).map(({ number }) => number - 1);
  const called = new Set(rows.filter(({ words }) => words[0] === RJM).map(({ words }) => words[1]));
  const jumps = rows.filter(({ words, location }) => words[0] === LJM && called.has(location + 1)).map(({ location }) => location);
  const words = rows.flatMap((row) => row.words.map((_, at) => ({ ...row, at })));
  const begun = (some, first) => [...new Map(some.map((word) => [word[first] + word.at, word]))].filter(([, { at }]) => !at)
    .map(([address, { number, words: [word] }]) => [address, [word, untabbed(lines[number - 1]).trim()]]);
  const others = byNumber(all.filter(({ isLabel }) => !isLabel)), filled = new Set(words.map(({ location, at }) => location + at));
  return {
    names: namesOf(byNumber(labels), others, filled),
    addresses: Object.fromEntries(all.map(({ name, number }) => [name, number])),
    texts: Object.fromEntries([...begun(words, "origin"), ...begun([...words].reverse(), "location")]),
    entries: [...new Set([...exits, ...jumps])],
  };
}

// The name of each address: by the label before it, if the cell is filled or behind a buffer's label, or else by a number's name.
function namesOf(labels, numbers, filled) {
  const names = {};
  for (let address = 0, last = -1; address < CELLS; address++) {
    if (labels.has(address)) last = address;
    const most = filled.has(last) ? 0 : NEAR, more = address > last ? `+${octal(address - last)}` : "";
    const isNear = last >= 0 && (address - last <= most || filled.has(address));
    const name = isNear ? labels.get(last) + more : numbers.get(address);
    if (name) names[address] = name;
  }
  return names;
}
