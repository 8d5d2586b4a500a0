// What a session of the module says of what can't be done: node wrong.js library.mjs pp6600.wasm
import(require("url").pathToFileURL(process.argv[2])).then(async ({ LibrarySession, openLibrary }) => {
  const calls = await openLibrary(require("fs").readFileSync(process.argv[3]));
  const said = (call) => { try { call(); } catch (error) { console.log(error.message); } };
  said(() => new LibrarySession(calls, { deck: [49, 32, 56] }));
  const session = new LibrarySession(calls);
  said(() => session.back(-1));
  console.log(session.back(1), session.forward(1), session.turns(1, 1, 76, "again").status);
  said(() => session.numbers(106592 + 131072, 1));
  console.log(session.answer("STEP\n".repeat(1000001)).lines);
  session.close();
  session.close();
  said(() => session.back(1));
});
