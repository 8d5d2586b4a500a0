// The proved simulator of the CDC 6600's peripheral processors, for Node, Deno and pages: `open` begins a session. pp6600.d.ts has each call.
// Numbers of the machine are BigInt; others are plain numbers, so write 0o106 for an octal one.
import { Assembler, FORM as CONDITION, LINK_BYTES, LibraryError, LibrarySession, MADE_BYTES, STATUS, checked, openLibrary,
  placesOf } from "./library.mjs";

export { Assembler, CONDITION, LibraryError, STATUS };

// The first place of each kind, and the forms of `Assembler.written`. Numbers are decimal.
export const PLACE = Object.freeze({
  CELLS: 0, A: 40960, P: 40970, Q: 40980, PHASE: 40990, STATES: 41000, REGISTERS: 41012, CLOCK: 41024, FRAME: 41025, CARD: 41041,
  CARD_COLUMN: 41042, READER_MODE: 41043, PAPER_LENGTH: 41044, PAPER_COLUMN: 41045, PRINTER_MODE: 41046, PAPER: 41047, SLOT: 106583,
  WATCHES: 106584, CENTRAL: 106592,
});
export const FORM = Object.freeze({ COMPLAINTS: 0, WORDS: 1, LISTING: 2, LINES: 3, NAMES: 4, ROWS: 5, UNITS: 6 });
const MOST_LINKS = 33, MOST_CONTROL = 7; // of the next turn
const MOST_TURN_LINKS = 44, NAME_BYTES = 8;

// Loads the module from its bytes, or from an address; else from pp6600.wasm beside this file. One module can have many sessions.
export async function load(source = new URL("pp6600.wasm", import.meta.url)) {
  if (!(source instanceof URL)) return openLibrary(source);
  if (source.protocol === "file:") return openLibrary(await (await import("node:fs/promises")).readFile(source));
  const answer = await fetch(source);
  if (!answer.ok) throw new Error(`${source}: ${answer.status} ${answer.statusText}`);
  return openLibrary(await answer.arrayBuffer());
}

let own; // the module beside this file, once it is asked for

function ownModule() {
  own ??= load().catch((error) => {
    own = undefined; // so that a page can try again
    throw error;
  });
  return own;
}

// Begins a session, in the module beside this file or in another one.
export const open = async (options = {}, module = undefined) => new Session(module ?? await ownModule(), options);

// Returns the assembler.
export const assembler = async (module = undefined) => new Assembler(module ?? await ownModule());

// Returns the version of the module, as "6.0.0".
export async function version(module = undefined) {
  const number = (module ?? await ownModule()).pp6600_version();
  return [Math.floor(number / 1e6), Math.floor(number / 1e3) % 1e3, number % 1e3].join(".");
}

// Returns the name of the instruction with a code, how many words it has, and the number of its operand. It needs no session.
export async function instruction(code, module = undefined) {
  const rooms = new Assembler(module ?? await ownModule()), numbers = checked("instruction", code);
  const into = rooms.room("name", NAME_BYTES), given = [...numbers, into, BigInt(NAME_BYTES), ...rooms.outs(3)];
  const status = rooms.calls.pp6600_instruction(...given), [count, words, form] = rooms.results(3);
  const name = status === STATUS.DONE ? rooms.text(into, count) : "";
  rooms.release();
  if (!name) throw new LibraryError(status);
  return { name, words, form };
}

// Returns turns that a call wrote, each with its links. The source of a link is undefined if a number is read nowhere.
function turnsIn(made, links) {
  let next = 0;
  const link = () => {
    const [place, , source, isNone, how] = links.subarray(next, next += LINK_BYTES / 4);
    return { place, source: isNone ? undefined : source, operation: how & 0xff, field: (how >> 8) & 0xff, further: how >>> 16 };
  };
  return Array.from({ length: 2 * made.length / MADE_BYTES }, (_, turn) => {
    const [processor, address, word, kind, count, own, low, high] = made.subarray(MADE_BYTES / 2 * turn);
    return { processor, address, word, kind, links: Array.from({ length: count }, link), own, olds: low + 0x10000 * high };
  });
}

// A session, with turns one by one.
export class Session extends LibrarySession {
  // Makes turns, up to the first that changes a watched number, or by "again" performs actions that were undone. Returns each: its
  // processor, 10 if it is no turn, and the places that it overwrote with the numbers that were there. Returns undefined if there are
  // too few to be performed again, and then none is.
  moments(most, call = "turns") {
    checked("turns", most);
    const { status, made, olds } = this.turns(most, Math.max(most, 1), 76 * Math.max(most, 1), call), found = [];
    if (status === STATUS.REFUSED) return undefined;
    for (let turn = 0, at = 0; turn < made.length; turn += 2) {
      const overwritten = [];
      for (const end = at + 2 * made[turn + 1]; at < end; at += 2) overwritten.push({ place: Number(olds[at]), number: olds[at + 1] });
      found.push({ processor: made[turn], olds: overwritten });
    }
    return found;
  }

  // Makes turns as `turns` does. Returns the status; for each turn its processor, the address and the word of its instruction, its kind, its
  // links, of which the first `own` are its processor's, and how many old numbers it has; and these.
  origins(...how) {
    const { status, made, links, olds } = this.recorded(...how);
    return { status, made: turnsIn(made, links), olds };
  }

  // Returns what the next turn is, with the links of its processor alone, and the control places. No turn is made.
  nextOrigins() {
    const made = this.room("made", MADE_BYTES), links = this.room("links", LINK_BYTES * MOST_LINKS), control = this.room("control", 8 * MOST_CONTROL);
    const outs = this.outs(2);
    this.call("next_origins", [made, links, BigInt(MOST_LINKS), outs[0], control, BigInt(MOST_CONTROL), outs[1]]);
    const [linked, count] = this.results(2), words = this.view(Uint32Array, links, LINK_BYTES / 4 * linked);
    const [turn] = turnsIn(this.view(Uint16Array, made, MADE_BYTES / 2), words);
    return { ...turn, control: [...this.view(BigUint64Array, control, count)].map(Number) };
  }

  // Returns the newest action that can be undone and wrote one of so many places, as `origins` has a turn, with `newer`, how many actions
  // are newer; undefined if there is none. The processor of one that is no turn is 10.
  lastWrite(first, count = 1) {
    const places = checked("last_write", first, count), made = this.room("made", MADE_BYTES);
    const links = this.room("links", LINK_BYTES * MOST_TURN_LINKS), into = [...this.outs(1), made, links, BigInt(MOST_TURN_LINKS)];
    const status = this.call("last_write", [...places, ...into]), [newer] = this.results(1);
    if (status === STATUS.NOT_FOUND) return undefined;
    const words = this.view(Uint32Array, links, LINK_BYTES / 4 * MOST_TURN_LINKS);
    return { newer, ...turnsIn(this.view(Uint16Array, made, MADE_BYTES / 2), words)[0] };
  }

  // Makes turns as `turns` does, up to so many. Returns the status, and what their processors were about to do: of each number a column, with
  // one of each turn.
  columns(most, room = 4096) {
    const { status, rows } = this.rows(most, room), column = (at) => Uint16Array.from({ length: rows.length / 8 }, (_, turn) => rows[8 * turn + at]);
    const a = Uint32Array.from({ length: rows.length / 8 }, (_, turn) => rows[8 * turn + 2] + 0x10000 * rows[8 * turn + 3]);
    const [processor, p, q, phase, word, m] = [0, 1, 4, 5, 6, 7].map(column);
    return { status, processor, p, a, q, phase, word, m };
  }

  // Makes turns in the same way, and returns the numbers at 1 to 16 places after each.
  looks(most, places) {
    const numbers = checked("looks", most), chosen = placesOf(places), width = chosen.length, room = most * width;
    const given = this.given("places", chosen), into = this.room("seen", 8 * Math.max(room, 1));
    this.call("looks", [...numbers, ...given, into, BigInt(room), ...this.outs(1)]);
    const [turns] = this.results(1), seen = this.view(BigUint64Array, into, turns * width).slice();
    return Array.from({ length: turns }, (_, turn) => seen.subarray(turn * width, (turn + 1) * width));
  }
}
