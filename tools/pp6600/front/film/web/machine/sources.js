// ---- the sources of processors: whose line a cell is, where the processor is, when each line was performed, and what has been
// overwritten

import { CELLS, LINE, SKIP, WAITING } from "./places.js";

const NO_LINE = { number: 0, note: "" }, WHOLE = { text: "", address: null };

// The sources of a film by their processors, of what it knows of them: a name, lines, and rows of the listing that have words, each
// with the number of its line, where it runs, where it was loaded, and its words.
export function sourcesOf({ sources = {}, instructions }) {
  return new Map(Object.entries(sources).map(([n, { name, lines, rows }]) => {
    const words = rows.flatMap((row) => wordsOfRow(row, instructions)), ofLine = grouped(words, "line");
    const wordsOf = (line) => ofLine.get(line) || [], isOwn = ({ isSecondWord }) => !isSecondWord;
    const lineOf = (text, at) => ({ number: at + 1, text, address: wordsOf(at + 1)[0]?.location, loadedAt: -1, times: [],
      words: wordsOf(at + 1).filter(isOwn) });
    const places = { ofLine, atLocation: grouped(words, "location"), atOrigin: new Map(words.map((word) => [word.origin, word])) };
    return [Number(n), { n: Number(n), name, begun: [], waitsAt: -1, lines: lines.map(lineOf), ...places }];
  }));
}

// The words of a row. Of an instruction with two words the first one has the second, of others null.
function wordsOfRow([line, location, origin, ...words], instructions) {
  const hasTwo = words.length === 2 && instructions[words[0] >> 6].words === 2;
  return words.map((word, at) => ({ line, at, word, second: hasTwo && at === 0 ? words[1] : null, isSecondWord: hasTwo && at === 1,
    location: (location + at) % CELLS, origin: (origin + at) % CELLS }));
}

function grouped(words, key) {
  const groups = new Map();
  for (const word of words) groups.set(word[key], [...(groups.get(word[key]) || []), word]);
  return groups;
}

export const textOfSource = (source) => source.lines.map(({ text }) => text).join("\n");

// The word of a source that is in a cell, or was before it was overwritten; or null. First come those whose location it is.
function wordIn({ atOrigin, atLocation }, address, cell) {
  const loaded = atOrigin.get(address), all = [...(atLocation.get(address) || []), ...(loaded ? [loaded] : [])];
  const found = all.filter(({ word }) => word === cell(address)), after = cell((address + 1) % CELLS);
  const best = found.find(({ second }) => second === null || second === after) || found[0];
  return best ? { ...best, isThere: true } : loaded ? { ...loaded, isThere: false } : null;
}

// The line of the next turn of a processor, and if it does not perform its instruction, why not; in a block transfer the line that
// began it.
export function lineOfNext(film, source, turn = film.next(source.n)) {
  const address = film.addressOf(turn), cell = (at) => (at === address ? turn.word : turn.cell(at));
  const found = address === null ? null : wordIn(source, address, cell);
  return found ? { number: found.line, note: !found.isThere ? "was" : found.at ? `word ${found.at + 1}` : "" } : NO_LINE;
}

// The line that a turn performed.
export function lineOfMoment(film, moment) {
  const source = film.isTurn(moment) && film.sources.get(film.processor[moment]);
  return source ? film.atMoment(moment - 1, () => lineOfNext(film, source)) : NO_LINE;
}

// What is said of the words of a line at the moment that is shown: a text, and the address of the cell that has another word.
export function markOf(film, source, words) {
  const marks = words.map((word) => markOfWord(film, source, word)).filter(Boolean);
  return marks.find(({ text }) => text === "now") || marks[0] || WHOLE;
}

function markOfWord(film, source, word) {
  const at = (address) => film.cell(source.n, address);
  let mark = { text: "now", address: (word.origin + (at(word.origin) === word.word ? 1 : 0)) % CELLS };
  for (const address of new Set([word.location, word.origin])) {
    const second = (address + 1) % CELLS;
    if (at(address) !== word.word) continue;
    if (word.second === null || word.second === at(second)) return null;
    const found = wordIn(source, address, at);
    if (found.line === word.line && found.at === word.at) mark = { text: "m is", address: second };
  }
  return mark;
}

// Whether a line's words had been loaded at the moment that is shown.
export const isLoaded = (film, { loadedAt }) => loadedAt >= 0 && film.resolve(film.at) >= loadedAt;

// The line whose word a moment has overwritten in a cell that had it; or null.
export function lineLost(film, moment) {
  for (const { place } of film.sources.size ? film.changesOf(moment) : []) {
    const source = place.kind === "M" && film.sources.get(place.numbers[0]), word = source && source.atOrigin.get(place.numbers[1]);
    if (!word || film.numberIn(moment, place.places[0], film.was) !== word.word) continue;
    const line = source.lines[word.line - 1];
    if (isLoaded(film, line)) return { source, line };
  }
  return null;
}

// ---- what has come: from which moment on each line is loaded, and when it was begun

export function growSources(film, first) {
  film.atMoment(film.at, () => {
    for (const source of film.sources.values()) noteLoaded(film, source, first);
    for (let moment = Math.max(first, 1); film.sources.size && moment < film.count; moment++) {
      const source = film.isTurn(moment) && film.sources.get(film.processor[moment]);
      if (source) noteTime(film, source, moment);
    }
  });
}

// A line of the script loads a source.
function noteLoaded(film, source, first) {
  const isOpen = ({ words, loadedAt }) => words.length > 0 && loadedAt < 0;
  let open = source.lines.filter(isOpen);
  for (let moment = first; moment < film.count && open.length; moment++) {
    if (film.kinds[moment] !== LINE && film.kinds[moment] !== SKIP) continue;
    film.goTo(moment);
    for (const line of open) if (markOf(film, source, line.words) === WHOLE) line.loadedAt = moment;
    open = open.filter(isOpen);
  }
}

// Notes which line a turn begins. One that waits, or that is in its block, only goes on.
function noteTime(film, source, moment) {
  film.goTo(moment - 1);
  const turn = film.next(source.n), hasWaited = source.waitsAt === turn.p;
  source.waitsAt = film.kinds[moment] === WAITING ? turn.p : -1;
  if (hasWaited || turn.phase) return;
  const { number, note } = lineOfNext(film, source, turn);
  if (number && !note) for (const moments of [source.begun, source.lines[number - 1].times]) moments.push(moment);
}
