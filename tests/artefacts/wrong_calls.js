// Makes random calls of the classes for JavaScript with one wrong argument: node wrong_calls.js pp6600.mjs COUNT. Prints each that is no
// TypeError or RangeError which names the argument, or that changes the session; and how many were made.
const later = function* () { yield 40960; };
const NUMBERS = [undefined, null, "1", "", 1.5, NaN, Infinity, -1, 2 ** 32, 2 ** 53, {}, [], [1], true, 1n, () => 1, Symbol("one")];
const COUNTS = [null, "1", 1.5, NaN, Infinity, -1, 2 ** 53, {}, [], true, 1n];
const BYTES = [null, 5, {}, [256], [-1], [1.5], ["1"], [undefined], [, 1], [[49]], new Uint16Array([49]), new Uint32Array(1), new Float64Array(1), new ArrayBuffer(4),
  true, () => 1, new Set([49])];
const DECK = [...BYTES, "7"], TEXTS = [undefined, null, 5, {}, [], ["A"], new Uint8Array([32, 32]), true];
const FORMS = [undefined, null, 5, "INSIDE", {}, { kind: 0 }, [undefined], [null], [5], [[0, 0, 0, 0]], ["INSIDE"], [{}], [{ kind: "0" }], [{ kind: -1 }],
  [{ kind: 0, place: 1.5 }], [{ kind: 0, place: 2 ** 32 }], [{ kind: 0, first: -1n }], [{ kind: 0, last: 2n ** 64n }], [{ kind: 0, frist: 1 }], [, {}], new Set(), later()];
// Of each call its arguments, each with its name, one that is right, and those that are wrong.
const most = ["most", 1, NUMBERS], room = (name) => [name, 9, COUNTS], call = ["call", "turns", [null, "back", "", 5, {}, ["turns"]]];
const condition = ["condition|form|kind|place|first|last", [{ kind: 2, place: 0, first: 1 }], FORMS];
const CALLS = {
  answer: [["typed", "STEP 1\n", [...BYTES, undefined]]],
  numbers: [["first", 0, NUMBERS], ["count", 1, [...COUNTS, undefined]]],
  turns: [most, room("room"), room("oldRoom"), call],
  origins: [most, room("room"), room("linkRoom"), room("oldRoom")],
  moments: [most, call], columns: [most, room("room")],
  looks: [["most", 3, NUMBERS], ["places", [40960], [undefined, null, 5, "12", {}, new Set([1]), later(), [undefined], [null], [1.5], ["1"], [-1], [2 ** 32], [1n], [, 1], [[1]],
    new BigUint64Array(1), new Float64Array([1.5]), new DataView(new ArrayBuffer(4)), new ArrayBuffer(4)]]],
  lastWrite: [["first", 0, NUMBERS], ["count", 1, NUMBERS.slice(1)]],
  until: [condition, most], backUntil: [condition],
  back: [["count", 1, NUMBERS]], forward: [["count", 1, NUMBERS]],
};
const OPTIONS = { history: NUMBERS.slice(1), central: NUMBERS.slice(1), reader: NUMBERS.slice(1), printer: [...NUMBERS.slice(1), 256], deck: DECK, panel: DECK };
const ONE = [null, 5, "history", [], true, { histroy: 5 }, { history: 5, Deck: [] }];
const ASSEMBLER = [["call", "assemble_with", [undefined, null, "disassemble", 5, {}]], ["source", " LDN 5\n", TEXTS], ["form", 1, NUMBERS],
  ["decks", [["A", ""]], [null, 5, {}, ["A", "B"], [["A"]], [["A", "B", "C"]], [["A", 5]], [[undefined, ""]], [5], [undefined], "AB", [new Uint8Array(2)], [, ["A", ""]]]]];

let state = 6600;
const below = (count) => (state = (Math.imul(state, 1103515245) + 12345) >>> 0) % 65536 % count;
const one = (list) => list[below(list.length)];

// Returns right arguments with a wrong one among them, and its name.
function wrong(parts) {
  const at = below(parts.length);
  return [parts.map(([, right, wrongs], index) => (index === at ? one(wrongs) : right)), parts[at][0]];
}

import(require("url").pathToFileURL(process.argv[2])).then(async ({ Assembler, Session, instruction, load }) => {
  const calls = await load(), session = new Session(calls, { history: 100 }), assembler = new Assembler(calls);
  const machine = () => [JSON.stringify(session.counts()), session.numbers(0, 120000).join()].join();
  session.answer("SET M 0 100 1405 0376\nSET P 0 100\nSTEP 40\nBACK 10\n");
  const before = machine();
  const name = (given) => String(JSON.stringify(given, (_, part) => (typeof part === "bigint" ? `${part}n` : part)));
  const made = {
    session: () => { const [words, names] = wrong(CALLS[(made.last = one(Object.keys(CALLS)))]); return [() => session[made.last](...words), words, names]; },
    option: () => { const option = one(Object.keys(OPTIONS)), given = one(OPTIONS[option]); return [() => new Session(calls, { [option]: given }), given, option]; },
    options: () => { const given = one(ONE); return [() => new Session(calls, given), given, "options"]; },
    module: () => { const given = one([undefined, null, 5, {}, "module"]); return [() => new Session(given), given, "module"]; },
    assembler: () => { const [words, names] = wrong(ASSEMBLER); return [() => assembler.written(...words), words, names]; },
    instruction: () => { const given = one(NUMBERS); return [() => instruction(given, calls), given, "code"]; },
  };
  const kinds = ["session", "session", "session", "option", "options", "module", "assembler", "instruction"];
  let count = 0;
  for (; count < Number(process.argv[3]); count++) {
    const kind = one(kinds), [make, given, names] = made[kind]();
    try {
      await make();
      console.log(`${kind} ${kind === "session" ? made.last : ""} takes ${name(given)}`);
    } catch (error) {
      const isRight = error.constructor === TypeError || error.constructor === RangeError;
      if (!isRight || !new RegExp(`\\b(${names})\\b`).test(error.message)) console.log(`${kind} ${made.last}: ${name(given)}: ${error.name} ${error.message}, not ${names}`);
    }
    if (count % 20 === 0 && machine() !== before) throw new Error("a wrong call has changed the session");
  }
  console.log(machine() === before, count);
});
