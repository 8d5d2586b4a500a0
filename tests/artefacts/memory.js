// Memory of the module, at its limits: node memory.js library.mjs pp6600.wasm
const PLACES = 106592 + 32768, PAGE = 1 << 16, MEMORY = 5; // places of the smallest machine; bytes; the section of a module for its memory
const module_ = require("fs").readFileSync(process.argv[3]);

// Returns a number of a module at an address, seven bits a byte, and the address behind it.
function numberAt(at) {
  for (let number = 0, shift = 0; ; shift += 7) {
    number |= (module_[at] & 127) << shift;
    if (module_[at++] < 128) return [number, at];
  }
}

const bytesOf = (number) => (number < 128 ? [number] : [(number & 127) | 128, ...bytesOf(number >> 7)]);

// Returns the module with at most so many pages more than it begins with.
function withPages(more) {
  for (let at = 8; ; ) {
    const [size, start] = numberAt(at + 1);
    if (module_[at] === MEMORY) {
      const [pages] = numberAt(start + 2), limits = [1, 1, ...bytesOf(pages), ...bytesOf(pages + more)]; // one memory, with a limit
      return Buffer.concat([module_.subarray(0, at + 1), Buffer.from([limits.length, ...limits]), module_.subarray(start + size)]);
    }
    at = start + size;
  }
}

let LibrarySession, STATUS, openLibrary;
const opened = (calls) => new LibrarySession(calls, { history: 200, central: 32768 });

// Reads few numbers at a time, since there is little memory left.
function machineOf(session) {
  const parts = [];
  for (let first = 0; first < PLACES; first += 512) parts.push(session.numbers(first, Math.min(512, PLACES - first)).join());
  return parts.join();
}

// Each size about a power of two gets memory that is there, or none.
function checkSizes(calls) {
  let given = 0;
  for (let power = 16n; power < 64n; power++) {
    for (const size of [(1n << power) - 1n, 1n << power, (1n << power) + 1n]) {
      const at = calls.pp6600_room(size);
      if (at && at + size > BigInt(calls.memory.buffer.byteLength)) throw new Error(`${size} bytes at ${at} are not there`);
      if (at) calls.pp6600_end_room(at), given++;
    }
  }
  calls.pp6600_end_room(0n);
  console.log(calls.pp6600_room((1n << 64n) - 1n) === 0n, given > 40);
}

// Opens sessions until there is no memory but four pages, into which each can read its numbers. Returns them.
function fill(calls) {
  const spare = calls.pp6600_room(BigInt(4 * PAGE)), sessions = [];
  for (;;) {
    try {
      sessions.push(opened(calls));
      sessions[sessions.length - 1].answer(`SET A 0 ${sessions.length.toString(8)}\nSET M 3 0 ${sessions.length.toString(8)}\nSTEP 20\n`);
    } catch (error) {
      if (error.status !== STATUS.NO_MEMORY) throw error;
      calls.pp6600_end_room(spare);
      return sessions;
    }
  }
}

// When memory has run out, the other sessions are as they were, and one that is closed makes room for another.
function checkOthers(calls) {
  const sessions = fill(calls), before = sessions.map(machineOf);
  const [closed] = sessions.splice(1, 1), [was] = before.splice(1, 1);
  closed.close();
  const another = opened(calls);
  console.log(sessions.length > 2, sessions.every((session, at) => machineOf(session) === before[at]), machineOf(another) !== was);
  sessions[0].answer("STEP 30\n");
  sessions[0].back(24);
  console.log(machineOf(sessions[0]) === before[0]);
}

// Memory that was given back when it had run out serves a larger request; every second block alone serves none.
function checkGivenBack(calls) {
  const rooms = [], size = BigInt(4 * PAGE);
  for (let at; (at = calls.pp6600_room(size)); ) rooms.push(at);
  const giveBack = (part) => rooms.forEach((at, index) => index % 2 === part && calls.pp6600_end_room(at));
  giveBack(0);
  const larger = calls.pp6600_room(2n * size);
  giveBack(1);
  const all = calls.pp6600_room(BigInt(rooms.length) * size);
  console.log(rooms.length > 40, larger === 0n, all !== 0n);
  calls.pp6600_end_room(all);
  console.log(opened(calls).answer("STEP\n").text.trim());
}

// With each limit from none on, a session is opened or there is no memory for it.
async function checkLimits() {
  for (let more = 0, failed = 0; ; more++) {
    const calls = await openLibrary(withPages(more));
    try {
      console.log(opened(calls).answer("STEP\n").text.trim(), failed > 0);
      return;
    } catch (error) {
      if (error.status !== STATUS.NO_MEMORY) throw error;
      failed++;
    }
  }
}

// A line that is too long for a call is no endless loop.
function checkLine(calls) {
  const session = new LibrarySession(calls), line = new Uint8Array(268435457 + 5).fill(32);
  line.set([...Buffer.from("STEP\n")]);
  try {
    session.answer(line);
  } catch (error) {
    console.log(error.message, error.done.text.trim(), session.counts().kept);
  }
}

// With memory for a session and for little more, a line whose answer does not fit is not performed, and the answers before it are there.
async function checkAnswer() {
  for (let more = 0; ; more++) {
    try {
      opened(await openLibrary(withPages(more)));
    } catch {
      continue;
    }
    const session = opened(await openLibrary(withPages(more + 4)));
    try {
      session.answer("SET A 0 5\nSTEP\nDUMP C 0 77777\nSTEP\n");
    } catch ({ message, done }) {
      console.log(message, JSON.stringify(done), session.counts().kept, session.answer("STEP\n").text.trim());
      return;
    }
  }
}

(async () => {
  ({ LibrarySession, STATUS, openLibrary } = await import(require("url").pathToFileURL(process.argv[2])));
  checkSizes(await openLibrary(module_));
  await checkLimits();
  checkOthers(await openLibrary(withPages(220)));
  checkGivenBack(await openLibrary(withPages(220)));
  checkLine(await openLibrary(module_));
  await checkAnswer();
})();
