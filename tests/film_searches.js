// node SEARCHES MODULE ABOUT SESSIONS: performs sessions, and looks for conditions in them by the modules of a film's page, as its worker does.
// Writes for each a line of JSON: of each condition after how many actions it comes to hold, as often as the session wants, and last, or null.
// tests/films.py joins it.

import { parseCondition } from "../tools/pp6600/front/film/web/engine/conditions.js";
import { instructionsOf, openLibrary } from "../tools/pp6600/front/film/web/engine/library.mjs";
import { Session } from "../tools/pp6600/front/film/web/engine/session.js";

const fs = require("fs"), [, , module_, about, sessions] = process.argv, CONTROL = { pause: async () => {}, isStopped: () => false };

(async () => {
  const calls = await openLibrary(fs.readFileSync(module_)), known = { ...JSON.parse(fs.readFileSync(about)), instructions: instructionsOf(calls) };
  for (const { lines, conditions, most } of JSON.parse(fs.readFileSync(sessions))) {
    const session = new Session(calls, known, CONTROL), found = [];
    for (const line of lines) await session.perform(line);
    for (const text of conditions) {
      const parse = () => parseCondition(text, known.labels, "no condition"), all = [];
      for (let at = 0; at !== null && all.length < most;) all.push(at = (await session.firstOf(parse(), at)).found);
      found.push([all, await session.lastOf(parse(), session.position)]);
    }
    console.log(JSON.stringify(found));
    session.close();
  }
})();
