// ---- conditions on the machine, as P 0 = 105 and PP 3 waits: how the turns are found in which they come to hold

import { CELLS, octal, register } from "../machine/places.js";
import { testsIn } from "./condition_texts.js";
import { FORM } from "./library.mjs";

const { CHANGES, WRITES, WAITS, OR } = FORM;
const MOST_ALTERNATIVES = 0o100;
const LJM = 1, RJM = 2, WAITED = 1, IN_BLOCK = 3; // instructions, and kinds of turns
const waitOf = (n) => ({ kind: WAITS, place: n }), moveOf = (n) => ({ kind: WRITES, place: register(n, 0), first: 1 });
const isOther = ({ kind, entries }) => kind !== WAITS && !entries;

// Whether forms come to hold in the latest turn, which is made again.
function comesInLatest(session, forms) {
  session.back(1);
  return session.until(forms, 1).found;
}

// The latest turn, which is made again: its processor, the code of its instruction, and its kind.
function latestTurn(session) {
  session.back(1);
  const [n, , word, kind] = session.recorded(1).made;
  return { n, code: word >> 6, kind };
}

// ---- the alternatives of a condition, as tools/pp6600/run judges them

// Of some tests the processors that are to wait, and those of them that do: the latest turn of each was a wait. A setting is no turn.
class Waits {
  waiting = new Set();
  constructor(tests) { this.numbers = new Set(tests.filter(({ kind }) => kind === WAITS).map(({ place }) => place)); }
  get areAll() { return this.waiting.size === this.numbers.size; }
  get lists() { return [...this.numbers].map((n) => [this.waiting.has(n) ? moveOf(n) : waitOf(n)]); }
  see({ n, kind }) { if (this.numbers.has(n)) this.waiting[kind === WAITED ? "add" : "delete"](n); }
}

// The calls of a processor that have not returned, the innermost last. A jump back is two cells, of which the second is the return word;
// entries has their addresses.
class Calls {
  calls = [];
  constructor({ n, entries }) { Object.assign(this, { n, jumps: entries }); }

  // Sees where P is, which a setting may have changed.
  begin(session) {
    const [p, phase] = [0, 3].map((index) => Number(session.numbers(register(this.n, index), 1)[0]));
    Object.assign(this, { p, isAtJump: !phase && this.jumps.includes(p) });
  }

  // Sees a turn. Returns whether what was performed in the place of a jump back has led elsewhere than its call had stored.
  see(session, { n, code, kind }) {
    if (n !== this.n || kind === WAITED) return false;
    const { p, isAtJump, calls } = this;
    this.begin(session);
    const jump = (this.p - 2 + CELLS) % CELLS;
    if (code === RJM && kind !== IN_BLOCK && this.jumps.includes(jump)) calls.push({ jump, returns: (p + 2) % CELLS, isAstray: false });
    return isAtJump && this.hasLeft(p, code === LJM);
  }

  // The jump back ends the innermost call of its subroutine, and those above it; another instruction there leads it astray, once.
  hasLeft(jump, isBack) {
    const at = this.calls.findLastIndex((call) => call.jump === jump), call = this.calls[at];
    if (!call || (!isBack && call.isAstray)) return false;
    if (isBack) this.calls.length = at;
    call.isAstray = true;
    return this.p !== call.returns;
  }
}

// Tests that hold together. By lists of forms the library finds the turns that it must see, and of each it says whether they hold there.
class Alternative {
  constructor(tests) {
    const [returns, ...more] = tests.filter(({ entries }) => entries), others = tests.filter(isOther), waits = new Waits(tests);
    Object.assign(this, { tests, others, waits, calls: returns ? new Calls(returns) : null, isNever: more.length > 0 }); // in one turn
    this.isOfLibrary = !returns && (tests.length === 1 || others.length === tests.length);
    this.most = this.isOfLibrary ? 1 : 2 * waits.numbers.size + 1;
  }

  // A wait that goes on is found in each of its turns.
  get lists() {
    const { tests, isOfLibrary, others, waits, calls } = this, goOn = [...waits.numbers].map((n) => [waitOf(n), ...others]);
    if (isOfLibrary) return [tests];
    return [...waits.lists, ...(calls ? [[moveOf(calls.n)]] : waits.areAll ? [...goOn, others].filter(({ length }) => length) : [])];
  }

  see(session, turn) {
    const { others, waits, calls } = this, hasReturned = !calls || calls.see(session, turn);
    waits.see(turn);
    const own = calls ? [moveOf(calls.n)] : waits.numbers.has(turn.n) ? [waitOf(turn.n)] : [], forms = [...own, ...others];
    return hasReturned && !this.isNever && waits.areAll && forms.length > 0 && comesInLatest(session, forms);
  }
}

// A condition is one of several lists of tests, which hold together.
export class Condition {
  constructor(lists) {
    this.alternatives = lists.map((tests) => new Alternative(tests));
    const isTooLong = this.alternatives.reduce((sum, { most }) => sum + most, 0) > MOST_ALTERNATIVES;
    if (isTooLong) throw new Error(`at most ${octal(MOST_ALTERNATIVES)} conditions are joined by or`);
    this.isOfLibrary = this.alternatives.every(({ isOfLibrary }) => isOfLibrary);
    this.remembers = this.alternatives.some(({ calls }) => calls); // what came before, so that it must see all turns
  }

  get forms() {
    return this.alternatives.flatMap(({ lists }) => lists).flatMap((forms, at) => (at ? [{ kind: OR }, ...forms] : forms));
  }

  // Makes turns of a session, at most so many, up to the first in which it comes to hold. Returns how many, and whether it does.
  next(session, most) {
    for (const { calls } of this.alternatives) calls?.begin(session);
    for (let count = 0; ;) {
      const { turns, found } = session.until(this.forms, most - count);
      count += turns;
      const isFound = found && (this.isOfLibrary || this.isRight(session));
      if (isFound || !found || count === most) return { count, isFound };
    }
  }

  isRight(session) {
    const turn = latestTurn(session);
    return this.alternatives.filter((one) => one.see(session, turn)).length > 0; // each sees it
  }
}

// The condition that one of some places changes.
export const changes = (places) => new Condition(places.map((place) => [{ kind: CHANGES, place, first: 1 }]));

// Conditions of which one must hold are joined by or. Labels has of each processor the numbers by their names, and its subroutines; the
// sentence says what a condition is.
export const parseCondition = (text, labels, sentence) => new Condition(testsIn(text, labels, sentence));
