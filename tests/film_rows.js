// node ROWS MODULE ABOUT SESSIONS: performs sessions by the modules of a film's page, as its worker and the page do, and writes for each a line
// of JSON: the answers, what the page knows of each moment, and its numbers at the end. tests/films.py joins it.

import { instructionsOf, openLibrary } from "../tools/pp6600/front/film/web/engine/library.mjs";
import { Session } from "../tools/pp6600/front/film/web/engine/session.js";
import { Film } from "../tools/pp6600/front/film/web/machine/film.js";
import { placesOfSetting, wordsIn } from "../tools/pp6600/front/film/web/machine/lines.js";
import { columnOf, constantText } from "../tools/pp6600/front/film/web/machine/origins.js";
import { LINE, isUpper, isWord, layout, upperOf, wordOfUpper } from "../tools/pp6600/front/film/web/machine/places.js";
import { lineText } from "../tools/pp6600/front/film/web/machine/words.js";

const fs = require("fs"), [, , module_, about, sessions] = process.argv, CONTROL = { pause: async () => {}, isStopped: () => false };

function changesOf(film, moment) {
  const changed = [...film.places.subarray(film.starts[moment], film.starts[moment + 1])].filter((place) => place < layout.end);
  const places = [...new Set(changed.map((place) => (isUpper(place) ? wordOfUpper(place) : place)))];
  const number = (place, row) => {
    const low = film.numberIn(moment, place, row);
    return isWord(place) ? String((BigInt(film.numberIn(moment, upperOf(place), row)) << 30n) | BigInt(low)) : String(low);
  };
  return places.map((place) => [place, number(place, film.was), number(place, film.now)]).sort(([one], [other]) => one - other);
}

// What a moment wrote: of a line the number of each word, of a turn whether it moved a number, a device wrote it, or a block ended so.
function writesOf(film, moment) {
  if (!film.isTurn(moment)) return film.kinds[moment] === LINE ? placesOfSetting(wordsIn(lineText(film, moment))).map(([place, word]) => [place, word, "", []]) : [];
  return film.writesOf(moment).map((write) => {
    const column = columnOf(film, { moment, write }), sources = write.sources.map((one) => [one.place, one.parts]);
    if (write.isOfDevice) return [write.place, 2, "", column ? [[layout.end + 80 * column.card + column.column, 0]] : []];
    return [write.place, (write.isMoved ? 1 : 0) | (write.endsBlock ? 8 : 0), constantText(film, moment, write), sources];
  });
}

(async () => {
  const calls = await openLibrary(fs.readFileSync(module_)), known = { ...JSON.parse(fs.readFileSync(about)), instructions: instructionsOf(calls) };
  const bytes = (text) => Uint8Array.from(text, (letter) => letter.charCodeAt(0));
  for (const { lines, deck, panel } of JSON.parse(fs.readFileSync(sessions))) {
    const film = new Film(known), session = new Session(calls, { ...known, deck: bytes(deck), panel: bytes(panel) }, CONTROL), answers = [], moments = [];
    for (const line of lines) answers.push(await session.perform(line));
    film.grow(session.take());
    for (let at = 1; at < film.count; at++) {
      film.goTo(at);
      const p = film.isTurn(at) ? film.turnOf(at).p : 0;
      moments.push([film.kinds[at], film.processor[at], p, film.turn[at], changesOf(film, at), writesOf(film, at)]);
    }
    console.log(JSON.stringify({ answers, moments, deck: layout.end, numbers: [...film.numbers.subarray(0, layout.watches)] }));
    session.close();
  }
})();
