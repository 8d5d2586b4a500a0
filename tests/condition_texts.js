// node READS LABELS TEXTS: reads texts of conditions by the modules of a film's page. Writes a line of JSON for each: the lists of its
// tests, or what is said. tests/films.py joins it.

import { testsIn } from "../tools/pp6600/front/film/web/engine/condition_texts.js";
import { setLayout } from "../tools/pp6600/front/film/web/machine/places.js";

const fs = require("fs"), [, , labels, texts] = process.argv, known = JSON.parse(fs.readFileSync(labels));

setLayout(0o400000);
for (const text of JSON.parse(fs.readFileSync(texts))) {
  try {
    const tests = testsIn(text, known, "FORM").map((list) => list.map(({ kind, place, first = 0, last = 0, n, entries }) =>
      (entries ? ["returns", n, entries] : [kind, place, String(first), String(last)])));
    console.log(JSON.stringify({ tests }));
  } catch (error) { console.log(JSON.stringify({ said: error.message })); }
}
