#!/usr/bin/env node
// The program pp6600 for Node, by the proved module: it takes the words of the program, and has its answers, messages and statuses.
// What is around the module is here, and is tested beside the program: words, files and streams.
import { closeSync, openSync, readFileSync, readSync, writeSync } from "node:fs";
import { isatty } from "node:tty";

import { STATUS, Session, load, version } from "./pp6600.mjs";

const USAGE = "usage: pp6600 [--history N] [--central K] [--deck F] [--reader C] [--printer C] [--panel F] [SCRIPT]\n";
const OPTIONS = ["--history", "--central", "--deck", "--reader", "--printer", "--panel", "SCRIPT"];
const FILE_BYTES = 1048576, SCRIPT_BYTES = 268435456, SCRIPT_LINES = 1000000; // the most that is read of a file and of a script
const KEPT_OF_LINE = 1100, PIECE = 65536, LINE_FEED = 10;
const GREETING = `SET STEP BACK FORWARD WATCH UNWATCH DEADSTART DUMP
All numbers are octal. Ctrl-D ends.
This is the proved machine, in WebAssembly.
`;

// What ends the program early: its exit status and its line.
class Trouble extends Error {
  constructor(exit, text) {
    super(`pp6600: ${text}`);
    this.exit = exit;
  }
}

function troubleIf(is, text, exit = 2) {
  if (is) throw new Trouble(exit, text);
}

const isOption = (word) => word.length > 1 && word.startsWith("-"); // - alone is a file's name

// ---- words

// Returns the words of the command line by their options, the script by the name SCRIPT; undefined if they ask for help.
function readWords(words) {
  const given = new Map();
  let isPlain = false;
  for (let at = 0; at < words.length; at++) {
    const word = words[at];
    if (!isPlain && (word === "--help" || word.startsWith("-h"))) return undefined;
    if (!isPlain && word === "--") {
      isPlain = true;
      continue;
    }
    let [name, value] = ["SCRIPT", word];
    if (!isPlain && isOption(word)) {
      const equals = word.indexOf("=");
      name = equals < 0 ? word : word.slice(0, equals);
      value = equals < 0 ? words[++at] ?? "--" : word.slice(equals + 1);
      troubleIf(equals < 0 && isOption(value), "BAD ARGUMENTS");
    }
    troubleIf(!OPTIONS.includes(name) || given.has(name), "BAD ARGUMENTS");
    given.set(name, value);
  }
  return given;
}

// Returns the numbers that a session takes.
function readNumbers(given) {
  const texts = ["--history", "--central"].map((name, at) => given.get(name) ?? ["10000", "128"][at]);
  troubleIf(!texts.every((text) => /^0*[0-9]{1,5}$/.test(text)), "BAD ARGUMENTS");
  const [history, central] = texts.map(Number);
  troubleIf(history < 1 || history > 10000 || ![32, 64, 128].includes(central), "BAD ARGUMENTS");
  const channels = ["--reader", "--printer"].map((name, at) => given.get(name) ?? ["12", "13"][at]);
  troubleIf(!channels.every((text) => /^0*([0-7]|1[0-3])$/.test(text)), "BAD CHANNEL");
  const [reader, printer] = channels.map((text) => parseInt(text, 8));
  return { history, central: 1024 * central, reader, printer };
}

// Fails if a word is not UTF-8, which Node replaces.
function checkWords(words) {
  if (!words.some((word) => word.includes("\ufffd"))) return;
  try {
    new TextDecoder("utf-8", { fatal: true }).decode(readFileSync("/proc/self/cmdline"));
  } catch {
    troubleIf(true, "BAD ARGUMENTS");
  }
}

// ---- files

// Yields the bytes of a file, by its path or its number, as they come. Each piece is overwritten by the next.
function* pieces(source, name) {
  let file = source;
  if (typeof source === "string") {
    try {
      file = openSync(source, "r");
    } catch {
      troubleIf(true, `CANNOT OPEN ${name}`);
    }
  }
  for (const piece = new Uint8Array(PIECE); ;) {
    let count = 0;
    try {
      count = readSync(file, piece);
    } catch (error) {
      troubleIf(error.code !== "EOF", "READ FAILED", 3); // which is how Windows says that a pipe has ended
    }
    if (!count) break;
    yield piece.subarray(0, count);
  }
  if (file !== source) closeSync(file);
}

// Returns the bytes of a deck or a panel, up to one beyond the most that is read. An empty file is a line: no bytes mean no file.
function bytesOf(path, name) {
  const parts = [];
  let left = FILE_BYTES + 1;
  for (const piece of pieces(path, name)) {
    parts.push(piece.slice(0, left));
    left -= parts.at(-1).length;
    if (!left) break;
  }
  const bytes = Buffer.concat(parts);
  return bytes.length ? bytes : Uint8Array.of(LINE_FEED);
}

// Yields the lines of a script with their line feeds, each as soon as it is read; of one that is too long its beginning.
function* linesOf(source) {
  let rest = Buffer.alloc(0), left = SCRIPT_BYTES, most = SCRIPT_LINES;
  for (const piece of pieces(source, "SCRIPT")) {
    const all = Buffer.concat([rest, piece.subarray(0, left)]);
    let from = 0;
    for (let end; most > 0 && (end = all.indexOf(LINE_FEED, from)) >= 0; from = end + 1, most--) yield all.subarray(from, end + 1);
    troubleIf(piece.length > left || (!most && from < all.length), "LINE LIMIT", 3);
    rest = all.subarray(from, from + KEPT_OF_LINE);
    left -= piece.length;
  }
  if (rest.length) yield rest;
}

function writeAll(text) {
  for (let data = Buffer.from(text, "latin1"); data.length;) {
    let count = 0;
    try {
      count = writeSync(1, data);
    } catch {}
    troubleIf(!count, "WRITE FAILED", 3);
    data = data.subarray(count);
  }
}

// ---- the program

// Returns a session of a machine with the options and their files. Faults of the deck come before the panel is opened.
function sessionOf(module, given) {
  const options = readNumbers(given);
  if (given.has("--deck")) {
    options.deck = bytesOf(given.get("--deck"), "DECK");
    try {
      new Session(module, { history: 1, central: 32768, deck: options.deck }).close();
    } catch (error) {
      if (error.message !== "pp6600: DECK TOO LONG") throw error; // which is said last
    }
  }
  if (given.has("--panel")) options.panel = bytesOf(given.get("--panel"), "PANEL");
  return new Session(module, options);
}

// Answers the lines of a script. Returns the exit status.
function serve(session, source) {
  let exit = 0;
  for (const line of linesOf(source)) {
    const { text, refused } = session.answer(line);
    writeAll(text);
    if (refused) exit = 1;
  }
  return exit;
}

async function perform(words) {
  if (words.length === 1 && words[0] === "--version") {
    writeAll(`pp6600 ${await version()}\n`);
    return 0;
  }
  checkWords(words);
  const given = readWords(words);
  if (!given) {
    try { writeAll(USAGE); } catch {}
    return 0;
  }
  const session = sessionOf(await load(), given);
  if (!given.has("SCRIPT") && isatty(0) && isatty(2)) {
    writeSync(2, `pp6600 ${await version()}: ${GREETING}`);
    process.on("SIGINT", () => {}); // Ctrl-C does not end a session by hand
  }
  return serve(session, given.get("SCRIPT") ?? 0);
}

// Returns the exit status of what ended the program, whose line it writes.
function report(error) {
  const isMemory = error.status === STATUS.NO_MEMORY || error instanceof RangeError;
  const [exit, text] = isMemory ? [2, "pp6600: NO MEMORY"] : [error.exit, error.message];
  if (exit === undefined) throw error;
  try { writeSync(2, `${text}\n`); } catch {}
  return exit;
}

process.exit(await perform(process.argv.slice(2)).catch(report));
