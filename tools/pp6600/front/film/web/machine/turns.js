// ---- the next turn of a processor, at the moment that a film shows: its instruction, which is the library's; and what it waits
// for and the sentence about it, which are in the tools' tables. No number of the machine is computed here

import { CELLS, CHANNELS, CLOCK, REGISTERS, layout, octal, two, four } from "./places.js";

export const FORM = { TARGET: 2, CONSTANT: 3, INDEXED: 4 }; // what an instruction has as operand, of pp6600.h
const STATE_LETTERS = "IEFX";
export const target = (p, d) => (p + (d < 0o40 ? d : d - 0o77) + CELLS) & 0o7777; // of a relative jump

// Its registers and its instruction, in a block transfer the one that began it, are those of the moment at which it is made. All
// else counts for the moment that the film shows.
export class Turn {
  constructor({ numbers, about }, n) {
    const [p, a, q, phase] = REGISTERS.map((first) => numbers[first + n]), cell = (at) => numbers[n * CELLS + (at & 0o7777)];
    const word = phase || cell(p), code = word >> 6, { name, words, form } = about.instructions[code];
    Object.assign(this, { about, numbers, n, p, a, q, phase, cell, word, code, d: word & 0o77, m: cell(p + 1), name, words, form });
    this.title = `${name} ${two(this.d)}`;
    this.second = !phase && words === 2 ? four(this.m) : "";
    this.text = `${this.title} ${this.second}`.trim();
  }

  // The address of its instruction, in a block what cell 0000 says; null if it is not there.
  get address() {
    const address = this.phase ? (this.cell(0) - 1) & 0o7777 : this.p;
    return this.cell(address) === this.word ? address : null;
  }

  // The address of its operand.
  get operand() {
    const isIndirect = this.code >> 3 === 4, index = this.d ? this.cell(this.d) : 0;
    if (this.form !== FORM.INDEXED) return isIndirect ? this.cell(this.d) : this.d;
    return this.m + index < CELLS ? this.m + index : this.m + index - (CELLS - 1);
  }

  get state() {
    if (this.d < CHANNELS) return STATE_LETTERS[this.numbers[layout.states + this.d]];
    return this.d === CLOCK ? "F" : this.phase ? "I" : "-";
  }

  get isWait() {
    const states = this.about.goes_on_in[this.phase ? "block" : "instruction"][this.code];
    return Boolean(states) && !(this.phase && this.a === 0) && !states.includes(this.state);
  }

  // The channel that it waits for, with the state in which it goes on; or "".
  get waits() { return this.isWait ? `${two(this.d)} ${this.d < CLOCK ? this.about.waits_for[this.code] : "never"}` : ""; }

  // What it will do, by a row of the tools' table.
  get says() {
    const { of, waits, waits_ever: ever } = this.about.sentences;
    const row = () => of[(this.phase ? "b" : "") + two(this.code)].find(([condition]) => holds(this, condition))[1];
    const text = !this.isWait ? row() : this.d < CLOCK ? waits : ever;
    return text.replace(/\{(.*?)\}/g, (_, name) => SAYS[name](this));
  }

  // The sentence about it; in a block transfer with the second word of its instruction, if that is still there.
  get sentence() {
    const { phase, words, address } = this;
    const second = phase && words === 2 && address !== null ? ` ${four(this.cell(address + 1))}` : "";
    return `${this.text}${second}: ${this.says}`;
  }
}

// ---- what the rows of the table ask for, and what they say

const fives = (first) => `${four(first & 0o7777)} to ${four((first + 4) & 0o7777)}`;
const counted = (number) => `${octal(number)} ${number === 1 ? "word is" : "words are"}`;
const HOLDS = {
  "": () => true, "A=0": (one) => one.a === 0, "A/0": (one) => one.a !== 0, "A+": (one) => one.a < 0o400000,
  "A-": (one) => one.a >= 0o400000, "Q=0": (one) => one.q === 0, "d<40": (one) => one.d < 0o40,
  "=P": (one) => target(one.p, one.d) === one.p, clock: (one) => one.d === CLOCK, lost: (one) => one.state === "I" && one.p === 0,
};
const SAYS = {
  A: (one) => octal(one.a, 6), P: (one) => four(one.p), Q: (one) => four(one.q), a: (one) => four(one.a & 0o7777),
  "A#": (one) => octal(one.a), "A,": (one) => counted(one.a), "Q,": (one) => counted(one.q), d: (one) => two(one.d),
  m: (one) => four(one.m), dm: (one) => two(one.d) + four(one.m), n: (one) => octal(one.d < 0o40 ? one.d : 0o77 - one.d),
  x: (one) => four(one.operand), "x+1": (one) => four((one.operand + 1) & 0o7777), X: (one) => four(one.cell(one.operand)),
  D: (one) => four(one.cell(one.d)), "D..": (one) => fives(one.d), "P..": (one) => fives(one.p),
  H: (one) => four(one.numbers[layout.words + one.d]), near: (one) => four(target(one.p, one.d)),
  on: (one) => four((one.p + one.words) & 0o7777), back: (one) => four((one.cell(0) + 1) & 0o7777),
  wanted: (one) => one.about.waits_for[one.code],
  state: (one) => ({ I: "is inactive", E: "is empty", F: "is full", X: "has a function code" })[one.state],
};
const holds = (one, condition) => (HOLDS[condition] || (() => condition.slice("state ".length).includes(one.state)))(one);
