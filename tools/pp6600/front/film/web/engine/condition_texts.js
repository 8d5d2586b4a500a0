// ---- the texts of conditions, as tools/pp6600/run/conditions.py reads them: tests/conditions.txt has texts for both

import { CLOCK, KINDS, PROCESSORS, SETTABLE, layout, octal, octalIn, placeOf, register } from "../machine/places.js";
import { FORM } from "./library.mjs";
import { Names } from "./names.js";

const { INSIDE, OUTSIDE, CHANGES, WRITES, PERFORMS, WAITS } = FORM;
const MOST_TESTS = 0o10, GREATEST = 2n ** 64n - 1n, STATES = ["I", "E", "F", "X"];
const A_PLACE = "a place is M n a, A n, P n, Q n, C a or H c, as on a console line";
const OF_A_PROCESSOR = ["M", "A", "P", "Q"], NAMED = ["M", "C", "H"], REGISTERS = ["P", "A", "Q", "PHASE"];
// Of each comparison the kind of its form, and the range, of the number or the two numbers that it has.
const COMPARISONS = {
  "=": (a) => [INSIDE, a, a], "!=": (a) => [OUTSIDE, a, a], "<=": (a) => [INSIDE, 0n, a], ">=": (a) => [INSIDE, a, GREATEST],
  "<": (a) => [OUTSIDE, a, GREATEST], ">": (a) => [OUTSIDE, 0n, a], inside: (a, b) => [INSIDE, a, b],
  outside: (a, b) => [OUTSIDE, a, b],
};
const lower = (word = "") => word.toLowerCase(), upper = (word = "") => word.toUpperCase(), isOctal = (word) => octalIn(word) !== null;

// The lists of tests of a text, of which one must hold. Labels has of each processor the addresses by their names, and its subroutines;
// the sentence says what a condition is.
export function testsIn(text, labels, sentence) {
  const words = text.split(/\s+/).filter(Boolean), names = new Names(labels), lists = [];
  let rest = ["or", ...words];
  while (/^(or|and)$/i.test(rest[0])) {
    if (lower(rest[0]) === "or") lists.push([]);
    const given = rest.slice(1);
    try {
      if (lists.at(-1).length === MOST_TESTS) throw new Error(`at most ${octal(MOST_TESTS)} tests are joined by and`);
      const [of, left, forms] = upper(given[0]) === "PP" ? processorIn(given, sentence) : placeIn(given, names, sentence);
      const [, form, make] = forms.find(([kind, one]) => (!kind || kind === of.kind) && begins(left, one)) || [];
      if (!form) throw new Error(sentence);
      lists.at(-1).push(make(of, left, names));
      rest = left.slice(form.split(" ").length);
    } catch ({ message }) { throw located(message, words, message === sentence ? [] : given, given.length); }
  }
  if (rest.length) throw located(`${rest.join(" ")} is too much: ${sentence}`, words, rest, rest.length);
  return lists;
}

// Whether words begin with those of a form, in which * is one word.
const begins = (words, form) => form.split(" ").every((one, at) => at < words.length && (one === "*" || one === lower(words[at])));

// What is wrong with words of which so many are left, with the column of the word of the rest that it begins with, or else of the first
// one left.
function located(message, words, rest, left) {
  const wrong = rest.indexOf(message.split(" ")[0]), at = words.length - left + Math.max(wrong, 0);
  return new Error(`${message}, at column ${words.slice(0, at).reduce((column, word) => column + word.length + 1, 1)}`);
}

// ---- what a test is of: a place, or P of a processor. Each function returns it, the words after it, and the forms that may follow

// A label may be in the place of an address, and a name in that of a channel or of a central word. M and the processor may be left out
// before a label.
function placeIn(given, names, sentence) {
  if (!given.length) throw new Error(sentence);
  const label = SETTABLE.includes(upper(given[0])) ? null : names.cell(given[0]);
  const words = label ? ["M", ...label.map((number) => octal(number)), ...given.slice(1)] : [...given], kind = upper(words[0]);
  const isCell = kind === "M" && words.length > 2 && isOctal(words[1]), processor = isCell ? octalIn(words[1]) : null, at = isCell ? 2 : 1;
  const isWord = NAMED.includes(kind) && at < words.length && !isOctal(words[at]);
  const number = isCell || isWord && kind !== "M" ? names.number(words[at], processor) : null;
  if (isWord && number === null) throw names.notKnown(words[at], processor);
  if (number !== null) words[at] = octal(number);
  const end = SETTABLE.includes(kind) ? 1 + KINDS[kind].sizes.length : 0, wrong = words.slice(1, end).find((one) => !isOctal(one));
  if (!end || words.length < end) throw new Error(A_PLACE);
  if (wrong !== undefined) throw new Error(`${wrong} is not octal`);
  return [placeOfKind(kind, words.slice(1, end).map(octalIn)), words.slice(end), OF_A_PLACE];
}

function processorIn([, digits, ...words], sentence) {
  const n = octalIn(digits), name = upper(words[lower(words[0]) === "not" ? 1 : 0]);
  if (!words.length) throw new Error(sentence);
  if (n === null) throw new Error(`${digits} is not octal`);
  if (n >= PROCESSORS) throw new Error(`${digits} is no processor: it is 0 to ${octal(PROCESSORS - 1)}`);
  const meant = [name, octal(n), ...words.slice(1, 3).map((word) => (lower(word) === "is" ? "=" : word))].join(" ");
  if (REGISTERS.includes(name))
    throw new Error(`PP ${octal(n)} comes before performs, waits, in a block and returns wrongly; for a register write ${meant}`);
  return [placeOfKind("P", [n]), words, OF_A_PROCESSOR_ALONE];
}

const placeOfKind = (kind, numbers) =>
  ({ kind, numbers, short: [kind, ...numbers.map((one) => octal(one))].join(" "), at: placeOf(kind, ...numbers) });

// The place of a number, if the machine has it.
function checked({ kind, numbers, short, at }) {
  if (kind === "H" && numbers[0] > CLOCK) throw new Error(`${short} is no channel: it is 0 to ${octal(CLOCK)}`);
  if (!numbers.every((number, index) => number < KINDS[kind].sizes[index])) throw new Error(`there is no ${short}`);
  return at;
}

// A number beside a place: octal, or a name, of the processor if the place is of one.
function numberIn(word, { kind, numbers: [processor] }, names) {
  const own = OF_A_PROCESSOR.includes(kind) ? processor : null, number = isOctal(word) ? `0o${word}` : names.number(word, own);
  if (number === null) throw names.notKnown(word, own);
  return BigInt(number);
}

function numberUpTo(word, place, names) {
  const number = numberIn(word, place, names);
  if (number >= 1n << BigInt(3 * KINDS[place.kind].digits)) throw new Error(`${word} is more than ${place.short} can be`);
  return number;
}

// ---- the tests

const test = (kind, place, first, last) => ({ kind, place, first, last });
const never = (place) => test(OUTSIDE, place, 0n, GREATEST);
const done = (kind) => (place) => ({ kind, place: checked(place), first: 1 });

// Cells from a place to the address that words begin with.
const cells = (kind) => (place, [word], names) => {
  const count = Number(numberIn(word, place, names)) - place.numbers[1] + 1;
  if (count < 1) throw new Error(`${word} is before the first cell of ${place.short}`);
  return { kind, place: checked(place), first: count };
};

function stateChanges(place) {
  const at = checked(place), [channel] = place.numbers;
  return channel === CLOCK ? never(at) : { kind: CHANGES, place: layout.states + channel, first: 1 };
}

// The state of the clock is always F.
function isState(place, [, letter]) {
  const state = STATES.indexOf(upper(letter)), [channel] = place.numbers;
  if (state < 0) throw new Error("a channel is I, E, F or X");
  const at = checked(place);
  if (channel === CLOCK) return STATES[state] === "F" ? test(INSIDE, at, 0n, GREATEST) : never(at);
  return test(INSIDE, layout.states + channel, state, state);
}

function comparison(place, [sign, ...words], names) {
  const numbers = words.slice(0, COMPARISONS[lower(sign)].length).map((word) => numberUpTo(word, place, names));
  const [kind, first, last] = COMPARISONS[lower(sign)](...numbers), at = checked(place);
  if (first > last) throw new Error(`${octal(first)} is over ${octal(last)}`);
  return test(kind, at, first, last);
}

// Labels have the jumps back of subroutines.
function returnsWrongly({ numbers: [n] }, _, names) {
  const entries = names.entries(n);
  if (entries.length) return { n, entries };
  throw new Error(`PP ${octal(n)} returns wrongly needs labels of a subroutine: NAMEX, and NAME at the cell after it`);
}

const inBlock = (kind) => ({ numbers: [n] }) => test(kind, register(n, 3), 0n, 0n);

// The forms of a test: after which kind of place, or any; its words, where * is one word; and what makes the test.
const OF_A_PLACE = [
  ["M", "* changes", cells(CHANGES)], ["M", "* is written", cells(WRITES)], ["", "is written", done(WRITES)],
  ["H", "changes state", stateChanges], ["", "changes", done(CHANGES)], ["H", "is *", isState], ["H", "is", isState],
  ...Object.entries(COMPARISONS).map(([sign, { length }]) => ["", sign + " *".repeat(length), comparison]),
];
const OF_A_PROCESSOR_ALONE = [
  ["", "waits", ({ numbers: [n] }) => ({ kind: WAITS, place: n })], ["", "returns wrongly", returnsWrongly],
  ["", "performs *", (p, [, word], names) => ({ kind: PERFORMS, place: p.numbers[0], first: numberUpTo(word, p, names) })],
  ["", "in a block", inBlock(OUTSIDE)], ["", "not in a block", inBlock(INSIDE)],
];
