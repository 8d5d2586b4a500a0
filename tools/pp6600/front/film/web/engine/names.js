// ---- the names of numbers in a condition, of the processors that have some, as tools/pp6600/run/names.py finds them

import { CELLS, four, range, two } from "../machine/places.js";

const MOST_NEAR = 9, NEAR = 0.6; // names that are looked at for the nearest, and how like they are at least
const DISTANCE = /^(-?[0-7]+)b?$/i, NAME = /^[\p{L}_]/u;

export class Names {
  // Labels has of each processor the numbers by their names, and the jumps back of subroutines.
  constructor(labels) {
    this.of = Object.entries(labels).map(([n, { addresses, entries }]) => ({ n: Number(n), numbers: Object.entries(addresses), entries }));
  }

  entries(n) { return (this.of.find((one) => one.n === n) || { entries: [] }).entries; }

  // The number that a name has, as START or START+3, of a processor, or of whichever if it is null; null if there is none.
  number(text, n = null) {
    const found = this.of.filter((one) => n === null || one.n === n).map(({ numbers }) => numberIn(numbers, text));
    return theNumber(text, found.filter((number) => number !== null));
  }

  // The processor and the address of a label, which only one processor has; null if there is none.
  cell(text) {
    const found = this.of.map(({ n }) => [n, this.number(text, n)]).filter(([, number]) => number !== null && number < CELLS);
    if (found.length > 1) throw new Error(`${text} is a name of ${found.map(([n]) => `PP ${two(n)}`).join(" and of ")}`);
    if (!found.length && this.near(text, null)) throw this.notKnown(text, null);
    return found[0] || null;
  }

  // The name that may be meant by a word that is none; "" if none is near, or the word is one.
  near(text, n) {
    const [name] = text.toUpperCase().split("+"), known = this.of.filter((one) => n === null || one.n === n);
    const names = known.flatMap(({ numbers }) => numbers.map(([own]) => own));
    return !NAME.test(text) || names.some((own) => own.toUpperCase() === name) ? "" : nearest(name, [...new Set(names)]);
  }

  // What is wrong with a word that is no octal number and no name.
  notKnown(text, n) {
    const near = this.near(text, n), hasNames = this.of.some((one) => n === null || one.n === n) && NAME.test(text) && !text.includes("+");
    return new Error(near ? `${text} is no name; the nearest is ${near}` : hasNames ? `${text} is no name` : `${text} is not octal`);
  }
}

function numberIn(numbers, text) {
  const [name, ...parts] = text.split("+"), more = DISTANCE.exec(parts.join("+") || "0");
  const found = theNumber(name, numbers.filter(([own]) => own.toUpperCase() === name.toUpperCase()).map(([, number]) => number));
  if (!more || found === null) return null;
  const number = found + parseInt(more[1], 8);
  return found < CELLS ? (number + CELLS) % CELLS : number;
}

function theNumber(name, numbers) {
  const found = [...new Set(numbers)].sort((one, other) => one - other);
  if (found.length > 1) throw new Error(`${name} is the name of ${found.map(four).join(" and of ")}`);
  return found.length ? found[0] : null;
}

// ---- the nearest name, as the assembler finds it: of the nearest ones that which begins alike the longest

function nearest(name, names) {
  const like = names.map((own) => ({ own, like: 2 * equal(own, name) / (own.length + name.length) }));
  const near = like.filter((one) => one.like >= NEAR).sort((one, other) => other.like - one.like || (one.own < other.own ? 1 : -1)).slice(0, MOST_NEAR);
  const begins = near.map(({ own }) => alike(own, name));
  return near.length ? near[begins.indexOf(Math.max(...begins))].own : "";
}

// How many characters two names begin with alike.
function alike(one, other) {
  const at = range(one.length).findIndex((index) => one[index] !== other[index]);
  return at < 0 ? one.length : at;
}

// How many characters two names have together: those of their longest common part, and of what is before and after it in both.
function equal(one, other) {
  let [first, second, size] = [0, 0, 0];
  for (const at of range(one.length))
    for (const to of range(other.length)) {
      const found = alike(one.slice(at), other.slice(to));
      if (found > size) [first, second, size] = [at, to, found];
    }
  return size ? size + equal(one.slice(0, first), other.slice(0, second)) + equal(one.slice(first + size), other.slice(second + size)) : 0;
}
