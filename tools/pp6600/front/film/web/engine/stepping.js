// ---- sessions of the simulator, their lines, and turns without a record of them

import { linesIn } from "../machine/lines.js";
import { octal } from "../machine/places.js";
import { LibrarySession } from "./library.mjs";

// A session with the options of a machine and the files of a run, of all that is known of these.
export const sessionOf = (calls, { history, central, reader, printer, deck, panel }) =>
  new LibrarySession(calls, { history, central, reader, printer, deck, panel });

export const MOST_AT_ONCE = 1 << 18; // turns of one call
export const ask = (session, text) => linesIn(session.answer(`${text}\n`).text);

// Makes turns by one line, at most so many. Returns how many, and whether a watch ended them.
export function stepped(session, most) {
  const [made, ...hits] = ask(session, `STEP ${octal(Math.min(most, MOST_AT_ONCE))}`);
  return { count: parseInt(made.split(" ")[1], 8), isWatched: hits.length > 0 };
}
