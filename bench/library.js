// The library's module at the other end of a pipe, for bench/run: it performs the lines of standard input, and writes their answers.
//   node library.js library.mjs MODULE
const files = require("fs");

function* linesOfInput() {
  const piece = Buffer.alloc(1 << 16);
  for (let rest = "", count; (count = files.readSync(0, piece)); ) {
    const lines = (rest + piece.toString("latin1", 0, count)).split("\n");
    rest = lines.pop();
    yield* lines;
  }
}

import(require("url").pathToFileURL(process.argv[2])).then(async ({ LibrarySession, openLibrary }) => {
  const session = new LibrarySession(await openLibrary(files.readFileSync(process.argv[3])));
  for (const line of linesOfInput()) files.writeSync(1, session.answer(`${line}\n`).text);
});
