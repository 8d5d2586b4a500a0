// node ASSEMBLER MODULE SOURCES: assembles sources by the modules of a film's page, and writes for each a line of JSON: the messages,
// the lines that load it into processor 3, and what the page has to know of it. tests/films.py joins it.

import { openLibrary } from "../tools/pp6600/front/film/web/engine/library.mjs";
import { Assembling, sourceOf } from "../tools/pp6600/front/film/web/page/assembling.js";

const fs = require("fs"), [, , module_, sources] = process.argv;

(async () => {
  const assembling = new Assembling(await openLibrary(fs.readFileSync(module_)));
  for (const text of JSON.parse(fs.readFileSync(sources))) {
    const { messages, rows } = assembling.assembled(text), made = { faults: messages.filter(({ isFault }) => isFault).length };
    if (!made.faults) {
      made.load = assembling.loadLines(text, 3);
      made.source = sourceOf("a.pp", text, rows);
      made.labels = assembling.labelsOf(text, rows);
    }
    console.log(JSON.stringify(made));
  }
})();
