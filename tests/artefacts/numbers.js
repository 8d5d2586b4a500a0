// Passes numbers to the classes of library.mjs that a call does not take: node numbers.js library.mjs pp6600.wasm TABLE
// TABLE is JSON: for each call the bits of its numbers. Prints each number that is taken, and how many were tried.
const table = JSON.parse(process.argv[4]);

import(require("url").pathToFileURL(process.argv[2])).then(async ({ Assembler, LibrarySession, openLibrary }) => {
  const calls = await openLibrary(require("fs").readFileSync(process.argv[3]));
  const session = new LibrarySession(calls), assembler = new Assembler(calls);
  const made = {
    open: (at, number) => new LibrarySession(calls, { [["history", "central", "reader", "printer"][at]]: number }),
    numbers: (_, number) => session.numbers(number, 1),
    turns: (_, number) => session.turns(number),
    origins: (_, number) => session.recorded(number),
    again: (_, number) => session.turns(number, 10, 100, "again"),
    until: (_, number) => session.until([], number),
    form: (at, number) => session.backUntil([{ kind: 0, [["kind", "place", "first", "last"][at]]: number }]),
    back: (_, number) => session.back(number),
    forward: (_, number) => session.forward(number),
    assemble: (_, number) => assembler.written("assemble", "", number),
    load_lines: (_, number) => assembler.written("load_lines", "", number),
  };
  session.answer("STEP 20\nBACK 10\n");
  const before = JSON.stringify([session.counts(), session.numbers(0, 1000).join()]);
  let count = 0;
  for (const [call, make] of Object.entries(made)) {
    table[call].forEach((bits, at) => {
      for (const number of [-1, 2 ** bits, 2 ** bits + 1, 2 ** bits + 10, 2 ** 53, 1.5, NaN, Infinity, "1", undefined, null]) {
        if (["open", "form"].includes(call) && number === undefined) continue; // which is the default
        if (Number.isInteger(number) && number >= 0 && number < 2 ** bits) continue;
        try {
          make(at, number);
          console.log(`${call} takes ${number}`);
        } catch (error) {
          if (error.constructor !== (typeof number === "number" ? RangeError : TypeError)) throw error;
        }
        count++;
      }
    });
  }
  for (const room of [-1, 2 ** 53, 1.5]) {
    try {
      session.numbers(0, room);
      console.log(`numbers takes a count of ${room}`);
    } catch (error) {
      if (!(error instanceof RangeError)) throw error;
    }
  }
  console.log(before === JSON.stringify([session.counts(), session.numbers(0, 1000).join()]), count);
});
