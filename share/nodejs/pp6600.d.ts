/** The proved simulator of the CDC 6600's peripheral processors. Numbers are decimal; the machine's own are 64 bits wide, as BigInt. */

/** Bytes, or an array of numbers from 0 to 255. */
export type Bytes = Uint8Array | Uint8ClampedArray | number[];

/** Places, by their numbers. */
export type Places = number[] | Uint8Array | Uint16Array | Uint32Array | Int32Array;

/** What the machine and its history are. Another name than these is a TypeError. */
export interface Options {
  /** How many actions can be undone, 1 to 10000; else 10000. */
  history?: number;
  /** The words of central memory: 32768, 65536 or 131072; else 131072. */
  central?: number;
  /** The channel of the card reader, 0 to 11; else 10. */
  reader?: number;
  /** The channel of the printer, 0 to 11; else 11. */
  printer?: number;
  /** The bytes of a deck of cards. */
  deck?: Bytes;
  /** The bytes of a dead start panel. */
  panel?: Bytes;
}

/** What lines of the console came to. */
export interface Answers {
  /** The answers. Their numbers are octal, as the console's are. */
  text: string;
  /** How many lines were performed. */
  lines: number;
  /** How many of them were rejected. */
  refused: number;
}

/** A place, and the number that was there before an action. */
export interface Old {
  place: number;
  number: bigint;
}

/** An action: the processor of a turn, 0 to 9, or 10 if it is no turn; and what it overwrote. */
export interface Moment {
  processor: number;
  olds: Old[];
}

/** How many actions can be undone, are ahead, and are kept at most; and whether the newest changed a watched number. */
export interface Counts {
  kept: number;
  ahead: number;
  capacity: number;
  changed: boolean;
}

/** The statuses of calls, as pp6600.h has them. */
export declare const STATUS: Readonly<Record<"DONE" | "ROOM" | "WATCHED" | "CLOSED" | "OPEN" | "NO_MEMORY" | "REFUSED" | "LIMIT" |
  "NOT_FOUND", number>>;

/** The first place of each kind: the place of P of processor 3 is PLACE.P + 3. */
export declare const PLACE: Readonly<Record<"CELLS" | "A" | "P" | "Q" | "PHASE" | "STATES" | "REGISTERS" | "CLOCK" | "FRAME" | "CARD" |
  "CARD_COLUMN" | "READER_MODE" | "PAPER_LENGTH" | "PAPER_COLUMN" | "PRINTER_MODE" | "PAPER" | "SLOT" | "WATCHES" | "CENTRAL", number>>;

/** The kinds of the forms of a condition, as pp6600.h has them. */
export declare const CONDITION: Readonly<Record<"INSIDE" | "OUTSIDE" | "CHANGES" | "WRITES" | "PERFORMS" | "WAITS" | "OR", number>>;

/** A form of a condition: a kind of CONDITION, and the place and the numbers that it names, 0 if they are left out. */
export interface Form {
  kind: number;
  place?: number;
  first?: number | bigint;
  last?: number | bigint;
}

/** Where a number that a turn writes comes from: an operation, and a place that it reads, if there is one. */
export interface Link {
  place: number;
  source?: number;
  operation: number;
  field: number;
  further: number;
}

/** A turn: its processor, the address and the word of its instruction, its kind, its links, of which the first `own` are its processor's, and
 *  how many old numbers it has. */
export interface OriginTurn {
  processor: number;
  address: number;
  word: number;
  kind: number;
  links: Link[];
  own: number;
  olds: number;
}

/** What the assembler writes of a source. */
export declare const FORM: Readonly<Record<"COMPLAINTS" | "WORDS" | "LISTING" | "LINES" | "NAMES" | "ROWS" | "UNITS", number>>;

/** A call failed, by its status of STATUS. If an option or a file was rejected, the message is the program's line, and `exit` is the
 *  program's exit status. */
export declare class LibraryError extends Error {
  name: "LibraryError";
  status: number;
  exit?: number;
  /** Of `answer`: what the lines came to before the one that is too long, or for whose answer there is no memory. They were performed. */
  done?: Answers;
}

/** The module, which can have many sessions. */
export type Module = WebAssembly.Exports;

/** Loads the module from its bytes, or from an address; else from pp6600.wasm beside this file. */
export declare function load(source?: BufferSource | URL): Promise<Module>;

/** Begins a session. Without a module it is the one beside this file, which is loaded once. */
export declare function open(options?: Options, module?: Module): Promise<Session>;

/** Returns the assembler. */
export declare function assembler(module?: Module): Promise<Assembler>;

/** Returns the version of the module, as "6.0.0". */
export declare function version(module?: Module): Promise<string>;

/** Returns the name of the instruction with a code, 0 to 0o77, how many words it has, and its operand, as pp6600.h numbers it. */
export declare function instruction(code: number, module?: Module): Promise<{ name: string; words: number; form: number }>;

/** A machine with its undo history. An argument of a wrong type is a TypeError, and a number that a call does not take a RangeError, which
 *  name it; else what fails is a LibraryError. Then nothing has changed, but for the lines that `answer` names. A session that has fewer
 *  actions than `back`, `forward` or `moments` are asked for is no failure: they return false or undefined. */
export declare class Session {
  constructor(module: Module, options?: Options);
  /** Performs lines of the console. If that fails after some of them, `done` of the error is what these came to. */
  answer(typed: string | Bytes): Answers;
  /** Returns the numbers at `count` places from the place `first` on. */
  numbers(first: number, count: number): BigUint64Array;
  /** Makes turns, up to the first that changes a watched number. */
  moments(most: number, call?: "turns"): Moment[];
  /** Performs actions that were undone. Returns undefined if there are too few, and then none is performed. */
  moments(count: number, call: "again"): Moment[] | undefined;
  /** Makes turns in the same way, and returns the numbers at 1 to 16 places after each. */
  looks(most: number, places: Places): BigUint64Array[];
  /** Makes turns in the same way, up to the room for so many. Returns what their processors were about to do, as columns: P, A, Q, the phase,
   *  and the words in the cell P and in the one after it, each with one number of each turn. */
  columns(most: number, room?: number): { status: number; processor: Uint16Array; p: Uint16Array; a: Uint32Array; q: Uint16Array;
    phase: Uint16Array; word: Uint16Array; m: Uint16Array };
  /** As `moments`, in arrays, up to the room for so many actions and old numbers. `made` has two numbers for each action: its processor, and
   *  how many pairs of `olds`, a place and a number, are its own. By "again" the status is STATUS.REFUSED if there are too few. */
  turns(most: number, room?: number, oldRoom?: number, call?: "turns" | "again"): { status: number; made: Uint32Array; olds: BigUint64Array };
  /** Makes turns as `turns` does, each with where the numbers that it wrote come from. */
  origins(most: number, room?: number, linkRoom?: number, oldRoom?: number): { status: number; made: OriginTurn[]; olds: BigUint64Array };
  /** Returns the next turn, with the links of its processor alone, and the places whose numbers decide what it reads and writes. */
  nextOrigins(): OriginTurn & { control: number[] };
  /** Returns the newest action that can be undone and wrote one of `count` places, 1 if it is left out, and how many actions are newer;
   *  undefined if there is none. The processor of one that is no turn is 10. */
  lastWrite(first: number, count?: number): OriginTurn & { newer: number } | undefined;
  /** Makes turns, at most so many, up to the first in which a condition comes to hold. Returns how many, and whether it does in the last. */
  until(condition: Form[], most: number): { turns: number; found: boolean };
  /** Goes back to the end of the last action before the newest in which a condition came to hold. Returns how many actions were undone; 0 if
   *  there is none. */
  backUntil(condition: Form[]): number;
  /** Undoes actions. Returns whether there were enough; if not, none is undone. */
  back(count: number): boolean;
  /** Performs actions again that were undone. Returns whether there were enough; if not, none is performed. */
  forward(count: number): boolean;
  counts(): Counts;
  /** Ends the session, and gives its memory back. To close it again does nothing. */
  close(): void;
}

/** The assembler. */
export declare class Assembler {
  constructor(module: Module);
  /** Returns the lines that a source makes: by "assemble" those of a FORM, by "assemble_with" the same with common decks, each a name and its
   *  lines, and with system texts, whose names begin with "SYSTEM ", by "load_lines" those that load it into a processor, 0 to 9. */
  written(call: "assemble" | "assemble_with" | "load_lines", source: string, number: number, decks?: [string, string][]):
    { lines: string[]; faults: number };
}
