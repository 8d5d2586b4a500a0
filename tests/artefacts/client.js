// Performs sessions in the library's module, as client.c does in the library. In Node: node client.js library.mjs MODULE SESSIONS ANSWERS
const TURNS = 100, OLDS = 1000, PIECE = 4096, CENTRAL = 106592, LOOKED_AT = [40960, 40970, 106583];

class Sum {
  value = 0;
  add(array) {
    for (const word of new Uint32Array(array.buffer, array.byteOffset, array.byteLength / 4)) this.value = Math.imul(this.value ^ word, 16777619);
  }
  status(number) {
    this.add(Uint32Array.of(number));
  }
}

// Returns the status of a call that returns nothing else.
function statusOf(call) {
  try {
    return call();
  } catch (error) {
    return error.status;
  }
}

function addMachine(session, central, sum) {
  for (let first = 0, end = CENTRAL + central; first < end; first += PIECE) {
    const numbers = session.numbers(first, Math.min(PIECE, end - first));
    sum.status(0);
    sum.add(numbers);
  }
}

function addRecords(sum, call) {
  let recorded;
  sum.status(statusOf(() => (recorded = call()).status));
  for (const array of recorded ? [recorded.made, recorded.olds] : []) sum.add(array);
}

// Makes turns. Returns the status, and the numbers at these places after each.
function looks(session, most, places, room) {
  const into = session.room("looks", 8 * room), given = session.given("places", Uint32Array.from(places));
  const status = session.call("looks", [most, ...given, into, BigInt(room), ...session.outs(1)]);
  return { status, numbers: session.view(BigUint64Array, into, places.length * session.results(1)[0]).slice() };
}

function addCalls(session, central, sum) {
  const addCounts = () => {
    const { kept, ahead, capacity, changed } = session.counts();
    sum.add(Uint32Array.of(kept, ahead, capacity, changed ? 1 : 0));
  };
  addMachine(session, central, sum);
  addCounts();
  addRecords(sum, () => session.turns(3 * TURNS, TURNS, OLDS));
  sum.status(session.back(7) ? STATUS.DONE : STATUS.REFUSED);
  sum.status(session.forward(2) ? STATUS.DONE : STATUS.REFUSED);
  addRecords(sum, () => session.turns(5, TURNS, OLDS, "again"));
  addRecords(sum, () => session.turns(1, TURNS, OLDS, "again"));
  const seen = looks(session, TURNS, LOOKED_AT, LOOKED_AT.length * TURNS);
  sum.status(seen.status);
  sum.add(seen.numbers);
  const { status, rows } = session.rows(3 * TURNS, TURNS);
  sum.status(status);
  sum.add(rows);
  addCounts();
  addMachine(session, central, sum);
}

// Returns the answers to sessions, in the bytes of client.c.
function answersOf(calls, sessions) {
  const parts = [], view = new DataView(sessions.buffer, sessions.byteOffset);
  for (let at = 0; at < sessions.length; ) {
    const [history, central, reader, printer, ...sizes] = Array.from({ length: 7 }, (_, index) => view.getUint32(at + 4 * index, true));
    at += 28;
    const [deck, panel, script] = sizes.map((size) => sessions.subarray(at, (at += size)));
    const sum = new Sum();
    let text, exit;
    try {
      const session = new LibrarySession(calls, { history, central, reader, printer, deck, panel });
      const done = session.answer(script);
      [text, exit] = [done.text, done.refused ? 1 : 0];
      addCalls(session, central, sum);
      session.close();
    } catch (error) {
      if (error.status !== STATUS.REFUSED) throw error;
      [text, exit] = [error.message, error.exit];
    }
    parts.push(new Uint8Array(Uint32Array.of(exit, text.length, sum.value).buffer), new TextEncoder().encode(text));
  }
  const all = new Uint8Array(parts.reduce((size, part) => size + part.length, 0));
  parts.reduce((at, part) => (all.set(part, at), at + part.length), 0);
  return all;
}

// The same in a page, from and to text.
async function answersInPage(module, sessions) {
  const bytesOf = (text) => Uint8Array.from(atob(text), (letter) => letter.charCodeAt(0));
  const answers = answersOf(await openLibrary(bytesOf(module)), bytesOf(sessions));
  let text = "";
  for (let at = 0; at < answers.length; at += 1 << 12) text += String.fromCharCode(...answers.subarray(at, at + (1 << 12)));
  return btoa(text);
}

async function main([libraryFile, moduleFile, sessionsFile, answersFile]) {
  const files = require("fs");
  Object.assign(globalThis, await import(require("url").pathToFileURL(libraryFile)));
  files.writeFileSync(answersFile, answersOf(await openLibrary(files.readFileSync(moduleFile)), new Uint8Array(files.readFileSync(sessionsFile))));
}

if (typeof require !== "undefined") main(process.argv.slice(2));
