// ---- the proved simulator, in a page or in Node: the sessions of pp6600.wasm, whose calls pp6600.h describes

export const STATUS = { DONE: 0, ROOM: 1, WATCHED: 2, CLOSED: 3, OPEN: 4, NO_MEMORY: 5, REFUSED: 6, LIMIT: 7, NOT_FOUND: 8 };
const REASONS = ["", "no room", "", "the session is closed", "the session is open", "no memory", "rejected", "a line is too long"];

// The kinds of the forms of a condition.
export const FORM = { INSIDE: 0, OUTSIDE: 1, CHANGES: 2, WRITES: 3, PERFORMS: 4, WAITS: 5, OR: 6 };
export const MADE_BYTES = 16, LINK_BYTES = 24; // of a turn and of a link that are written
const FORM_BYTES = 24;

// A call failed. If an option or a file was rejected, the text is the program's line, and `exit` is the program's exit status.
export class LibraryError extends Error {
  constructor(status, line, exit) {
    super(line || `pp6600.wasm: ${REASONS[status] || `status ${status}`}`);
    Object.assign(this, { name: "LibraryError", status, exit });
  }
}

// Returns the calls of the module that these bytes are. One module can have many sessions.
export const openLibrary = async (bytes) => (await WebAssembly.instantiate(bytes, {})).instance.exports;

// Returns the instructions by their codes: of each its name, how many words it has, and what it has as operand.
export function instructionsOf(calls) {
  const rooms = new Rooms(calls), into = rooms.room("name", 8);
  return Array.from({ length: 64 }, (_, code) => {
    calls.pp6600_instruction(code, into, 8n, ...rooms.outs(3));
    const [count, words, form] = rooms.results(3);
    return { name: rooms.text(into, count), words, form };
  });
}

// ---- what calls take. The module would leave out bits of a number, and read whatever it is given as if it were of the right type.

// The numbers of each call, in turn, with their bits.
const NUMBERS = {
  open: { history: 32, central: 32, reader: 8, printer: 8 }, numbers: { first: 32 }, turns: { most: 32 }, origins: { most: 32 },
  again: { most: 32 }, looks: { most: 32 }, columns: { most: 32 }, until: { most: 32 }, form: { kind: 32, place: 32, first: 64, last: 64 },
  back: { count: 32 }, forward: { count: 32 }, last_write: { first: 32, count: 32 }, instruction: { code: 32 },
  assemble: { form: 32 }, assemble_with: { form: 32 }, load_lines: { processor: 32 },
};

// Returns the error of an argument of another type, or of another number, text or name than it may be.
const wrongType = (name, wanted) => new TypeError(`pp6600.wasm: ${name} must be ${wanted}`);
const outOfRange = (name, given, wanted) => new RangeError(`pp6600.wasm: ${name}: ${String(given)} is ${wanted}`);

// Returns a number with so many bits.
function numberOf(name, given, bits) {
  if (typeof given !== "number" && !(bits === 64 && typeof given === "bigint")) throw wrongType(name, "a whole number");
  const isWhole = typeof given === "bigint" || Number.isInteger(given);
  if (!isWhole || given < 0 || given >= 2 ** bits) throw outOfRange(name, given, `no number of ${bits} bits`);
  return given;
}

// Returns the numbers for a call.
export const checked = (call, ...given) =>
  Object.entries(NUMBERS[call]).slice(0, given.length).map(([name, bits], at) => numberOf(name, given[at], bits));

// Returns a count of bytes or numbers for a call.
function counted(name, count) {
  if (typeof count !== "number") throw wrongType(name, "a whole number");
  if (Number.isSafeInteger(count) && count >= 0) return BigInt(count);
  throw outOfRange(name, count, "no count");
}

// Returns one of some names.
function oneOf(name, given, names) {
  if (names.includes(given)) return given;
  throw outOfRange(name, given, `none of ${names.join(", ")}`);
}

// Returns an object that has no other names than these.
function objectOf(name, given, names) {
  if (typeof given !== "object" || given === null || Array.isArray(given)) throw wrongType(name, "an object");
  const other = Object.keys(given).find((one) => !names.includes(one));
  if (other !== undefined) throw new TypeError(`pp6600.wasm: ${other} is no name of ${name}, which has ${names.join(", ")}`);
  return given;
}

function textOf(name, given) {
  if (typeof given !== "string") throw wrongType(name, "a text");
  return given;
}

// Returns the bytes of a text, bytes, or an array of numbers.
function bytesOf(name, given, isText = false) {
  if (isText && typeof given === "string") return new TextEncoder().encode(given);
  if (given instanceof Uint8Array || given instanceof Uint8ClampedArray) return given;
  if (!Array.isArray(given)) throw wrongType(name, isText ? "a text or bytes" : "bytes");
  return Uint8Array.from(Array.from(given, (byte) => numberOf(name, byte, 8)));
}

// Returns places, of an array of numbers.
export function placesOf(given) {
  if (!Array.isArray(given) && !(ArrayBuffer.isView(given) && !(given instanceof DataView))) throw wrongType("places", "an array of numbers");
  return Uint32Array.from(Array.from(given, (place) => numberOf("places", place, 32)));
}

// The module's memory for what calls are given and write. Addresses and sizes are 64 bits wide for the module.
class Rooms {
  constructor(calls) {
    if (!calls || typeof calls.pp6600_room !== "function") throw wrongType("module", "what load returns");
    this.calls = calls;
    this.rooms = {}; // the address and the size of the memory of each use
  }

  // Returns memory for a use, which grows as needed.
  room(use, bytes) {
    const old = this.rooms[use], size = counted(use, bytes);
    if (old && old.bytes >= bytes) return old.at;
    if (old) this.calls.pp6600_end_room(old.at);
    delete this.rooms[use];
    const at = this.calls.pp6600_room(size);
    if (!at) throw new LibraryError(STATUS.NO_MEMORY);
    this.rooms[use] = { at, bytes };
    return at;
  }

  release() {
    for (const { at } of Object.values(this.rooms)) this.calls.pp6600_end_room(at);
    this.rooms = {};
  }

  // Returns a part of the memory. The next call may move it.
  view = (Kind, at, count) => new Kind(this.calls.memory.buffer, Number(at), count);
  text = (at, size) => new TextDecoder("latin1").decode(this.view(Uint8Array, at, size));

  // Puts an array, of bytes or of numbers of 32 bits, into the memory. Returns its address and its length.
  given(use, array) {
    const at = this.room(use, array.byteLength || 8);
    this.view(array instanceof Uint32Array ? Uint32Array : Uint8Array, at, array.length).set(array);
    return [at, BigInt(array.length)];
  }

  // Returns where a call puts the numbers that it returns beside its status; and those, of which each has 32 bits.
  outs = (count) => [0n, 8n, 16n, 24n].slice(0, count).map((more) => this.room("results", 32) + more);
  results = (count) => [0, 2, 4, 6].slice(0, count).map((at) => this.view(Uint32Array, this.room("results", 32), 8)[at]);
}

const OPTIONS = ["history", "central", "reader", "printer", "deck", "panel"], RECORDED = ["turns", "again"];

// A session. Places and numbers of the machine are 64 bits wide too. Arrays are copies. What is no argument of a call is a TypeError or
// a RangeError, and what else fails is a LibraryError; then nothing has changed.
export class LibrarySession extends Rooms {
  // The options are the program's; `central` is a count of words, and `deck` and `panel` are the bytes of their files.
  constructor(calls, options = {}) {
    super(calls);
    const { history = 10000, central = 131072, reader = 0o12, printer = 0o13, deck = [], panel = [] } = objectOf("options", options, OPTIONS);
    const machine = checked("open", history, central, reader, printer), files = [bytesOf("deck", deck), bytesOf("panel", panel)];
    try {
      this.open(machine, ...files);
    } catch (error) {
      this.release();
      throw error;
    }
  }

  open(machine, deck, panel) {
    this.handle = this.given("handle", Uint32Array.of(0, 0))[0];
    const line = this.room("line", 128), files = [...this.given("deck", deck), ...this.given("panel", panel)];
    const status = this.calls.pp6600_open(...machine, ...files, this.handle, line, 128n, ...this.outs(2));
    const [size, exit] = this.results(2);
    if (status !== STATUS.DONE) throw new LibraryError(status, status === STATUS.OPEN ? "" : this.text(line, size), exit);
  }

  release() {
    super.release();
    this.handle = 0n;
  }

  // Makes a call. Returns its status if that is none of a failure, or if it is one of these.
  call(name, words, ...also) {
    if (!this.handle) throw new LibraryError(STATUS.CLOSED);
    const status = this.calls[`pp6600_${name}`](this.handle, ...words);
    if (status <= STATUS.WATCHED || status === STATUS.LIMIT || status === STATUS.NOT_FOUND || also.includes(status)) return status;
    throw new LibraryError(status);
  }

  // Performs lines, a text or bytes. Returns their answers, how many lines there were, and how many were rejected. Throws a
  // LibraryError at a line that is too long for a call, or for whose answer there is no memory; the lines before it were performed,
  // and `done` of the error is what they came to.
  answer(typed) {
    const bytes = bytesOf("typed", typed, true), done = { text: "", lines: 0, refused: 0 };
    try {
      this.perform(bytes, done);
    } catch (error) {
      throw Object.assign(error, { done });
    }
    return done;
  }

  perform(bytes, done) {
    const [from] = this.given("typed", bytes);
    for (let at = 0, room = 1 << 16, status = STATUS.ROOM; status !== STATUS.DONE; ) {
      const into = this.room("into", room);
      status = this.call("answer", [from + BigInt(at), BigInt(bytes.length - at), into, BigInt(room), ...this.outs(4)]);
      const [taken, count, lines, refused] = this.results(4);
      done.text += this.text(into, count);
      done.lines += lines;
      done.refused += refused;
      at += taken;
      if (!taken && status === STATUS.LIMIT) throw new LibraryError(status);
      if (!taken) room *= 4;
    }
  }

  // Returns the numbers at places in a row.
  numbers(first, count) {
    const places = checked("numbers", first), size = counted("count", count), into = this.room("numbers", 8 * Math.max(count, 1));
    this.call("numbers", [...places, into, size]);
    return this.view(BigUint64Array, into, count).slice();
  }

  // Makes turns, or by "again" performs actions again, all or if there are too few none (REFUSED). Returns the status; for each its processor, 10 if it is no turn, and
  // how many old numbers it has; and these, a place and the number that was there.
  turns(most, room = 4096, oldRoom = 8 * room, call = "turns") {
    const numbers = checked(oneOf("call", call, RECORDED), most), sizes = [counted("room", room), counted("oldRoom", oldRoom)];
    const made = this.room("made", 8 * room), olds = this.room("olds", 16 * oldRoom), also = call === "again" ? [STATUS.REFUSED] : [];
    const status = this.call(call, [...numbers, made, sizes[0], olds, sizes[1], ...this.outs(2)], ...also);
    const [turns, used] = status === STATUS.REFUSED ? [0, 0] : this.results(2);
    return { status, made: this.view(Uint32Array, made, 2 * turns).slice(),
      olds: this.view(BigUint64Array, olds, 2 * used).slice() };
  }

  // Makes turns as `turns` does. Returns the status, and of each turn a row of 16 bytes, as pp6600.h has it: what its processor was about to do.
  rows(most, room = 4096) {
    const numbers = checked("columns", most), size = counted("room", room), into = this.room("rows", 16 * Math.max(room, 1));
    const status = this.call("columns", [...numbers, into, size, ...this.outs(1)]), [turns] = this.results(1);
    return { status, rows: this.view(Uint16Array, into, 8 * turns).slice() };
  }

  // Makes turns as `turns` does. Returns the status, and what the library writes of them: of each turn eight numbers, of each link
  // six, and the old numbers.
  recorded(most, room = 4096, linkRoom = 8 * room, oldRoom = 8 * room) {
    const numbers = checked("origins", most);
    const sizes = [counted("room", room), counted("linkRoom", linkRoom), counted("oldRoom", oldRoom)];
    const made = this.room("made", MADE_BYTES * room), links = this.room("links", LINK_BYTES * linkRoom), olds = this.room("olds", 16 * oldRoom);
    const rooms = [made, links, olds].flatMap((at, index) => [at, sizes[index]]);
    const status = this.call("origins", [...numbers, ...rooms, ...this.outs(3)]), [turns, linked, used] = this.results(3);
    const written = (Kind, at, bytes) => this.view(Kind, at, bytes / Kind.BYTES_PER_ELEMENT).slice();
    return { status, made: written(Uint16Array, made, MADE_BYTES * turns), links: written(Uint32Array, links, LINK_BYTES * linked),
      olds: written(BigUint64Array, olds, 16 * used) };
  }

  // Puts a condition into the memory: forms, each with a kind of FORM and the place and the numbers that this kind names. Returns
  // its address and how many forms it has.
  condition(forms) {
    if (!Array.isArray(forms)) throw wrongType("condition", "an array of forms");
    const words = new BigUint64Array(FORM_BYTES / 8 * forms.length);
    Array.from(forms).forEach((form, at) => {
      const { kind, place = 0, first = 0, last = 0 } = objectOf("a form", form, Object.keys(NUMBERS.form));
      const [of, where, ...numbers] = checked("form", kind, place, first, last).map(BigInt);
      words.set([of | (where << 32n), ...numbers], FORM_BYTES / 8 * at);
    });
    return [this.given("condition", new Uint8Array(words.buffer))[0], BigInt(forms.length)];
  }

  // Makes turns, at most so many, up to the first in which a condition comes to hold. Returns how many, and whether it does in the
  // last.
  until(condition, most) {
    const numbers = checked("until", most), status = this.call("until", [...this.condition(condition), ...numbers, ...this.outs(1)]);
    return { turns: this.results(1)[0], found: status === STATUS.DONE };
  }

  // Goes back to the end of the last action before the newest in which a condition came to hold. Returns how many actions were
  // undone; 0 if there is none.
  backUntil(condition) {
    const status = this.call("back_until", [...this.condition(condition), ...this.outs(1)]);
    return status === STATUS.DONE ? this.results(1)[0] : 0;
  }

  // Undoes actions, or performs undone ones again. Returns whether there were enough; if not, nothing has changed.
  back = (count) => this.call("back", checked("back", count), STATUS.REFUSED) === STATUS.DONE;
  forward = (count) => this.call("forward", checked("forward", count), STATUS.REFUSED) === STATUS.DONE;
  counts() {
    this.call("counts", this.outs(4));
    const [kept, ahead, capacity, changed] = this.results(4);
    return { kept, ahead, capacity, changed: changed === 1 };
  }
  // Ends the session. To close it again does nothing.
  close() {
    if (this.handle) this.call("close", []);
    this.release();
  }
}

const WRITTEN = ["assemble", "assemble_with", "load_lines"];

// The assembler, whose calls need no session.
export class Assembler extends Rooms {
  // Returns the lines that a call writes of a source, for a form or a processor, and how many faults the source has. By
  // "assemble_with" it may read common decks, each of which is a name and its lines.
  written(call, source, number, decks = [], room = 1 << 16) {
    const numbers = checked(oneOf("call", call, WRITTEN), number), isPair = (pair) => Array.isArray(pair) && pair.length === 2;
    if (!Array.isArray(decks) || !Array.from(decks).every(isPair)) throw wrongType("decks", "pairs of a name and its lines");
    const texts = decks.flat().map((text) => new TextEncoder().encode(textOf("decks", text)));
    const given = this.given("source", new TextEncoder().encode(textOf("source", source)));
    if (call === "assemble_with") given.push(...this.decks(texts));
    const into = this.room("text", room);
    const status = this.calls[`pp6600_${call}`](...given, ...numbers, into, BigInt(room), ...this.outs(2));
    const [count, faults] = this.results(2);
    if (status === STATUS.ROOM) return this.written(call, source, number, decks, count);
    if (status !== STATUS.DONE) throw new LibraryError(status);
    return { lines: new TextDecoder().decode(this.view(Uint8Array, into, count)).split("\n").slice(0, -1), faults };
  }

  // Puts common decks into the memory, of each its name and its lines: of each text its address and its size. Returns the address
  // of these, and how many decks there are.
  decks(texts) {
    const words = new BigUint64Array(2 * texts.length);
    const at = this.room("texts", 8 + texts.reduce((sum, { length }) => sum + length, 0));
    let first = 0;
    texts.forEach((text, index) => {
      this.view(Uint8Array, Number(at) + first, text.length).set(text);
      words.set([at + BigInt(first), BigInt(text.length)], 2 * index);
      first += text.length;
    });
    return [this.given("decks", new Uint8Array(words.buffer))[0], BigInt(texts.length / 2)];
  }
}
