// ---- where a number came from: the steps by which it came to be in its place, from the writes of the moments of a film

import { LINE, SKIP, four, isWord, layout, nameOf, octal, placeAt, range, two } from "./places.js";
import { placesOfSetting, wordsIn } from "./lines.js";
import { placeIn } from "./written.js";
import { NOT_RECORDED } from "./film.js";
import { lineText, turnText, whenText } from "./words.js";

const MOST_STEPS = 32;
const HAVE_AN_ORIGIN = ["M", "A", "P", "Q", "H", "C", "XP"];
export const hasOrigin = (place) => place !== null && HAVE_AN_ORIGIN.includes(place.kind);

// The latest write of a place in effect at a moment, and its moment: 0 if none, -1 if it may be in skipped turns. That of a line is
// the number of its word, and that of the clock is null.
function lastWrite(film, place, moment) {
  let at = film.resolve(moment);
  for (; at > 0; at = film.resolve(at - 1)) {
    if (film.kinds[at] === SKIP) return { moment: NOT_RECORDED, write: null };
    const write = writeIn(film, place, at);
    if (write !== undefined) return { moment: at, write };
  }
  return { moment: at, write: null };
}

// The write of a place in a moment; undefined if there is none.
function writeIn(film, place, at) {
  const { kinds, links, linkStarts, places, starts } = film;
  if (kinds[at] === LINE) return placesOfSetting(wordsIn(lineText(film, at))).findLast(([one]) => one === place)?.[1];
  if (place === layout.clock) return places.subarray(starts[at], starts[at + 1]).includes(place) ? null : undefined;
  for (let link = linkStarts[at]; link < linkStarts[at + 1]; link += 2) {
    if (placeIn(links[link]) === place) return film.writesOf(at).findLast((one) => one.place === place);
  }
  return undefined;
}

// The sources of a write, of which some parts are wanted.
function sourcesOf({ place, isMoved, sources }, wanted) {
  if (!wanted || !isMoved || !isWord(place)) return sources;
  if (sources.length > 1) return sources.filter((_, at) => wanted & (1 << at));
  return sources.map((one) => ({ ...one, parts: one.parts ? one.parts & wanted : wanted })).filter(({ parts }) => parts);
}

const isTurnStep = (film, { moment, write }) => moment > 0 && film.isTurn(moment) && write !== null;
export const isOfDevice = (film, step) => isTurnStep(film, step) && step.write.isOfDevice;

// The write before a step's, if by the same instruction (in a block, of the same one), which computes the place from itself alone;
// or null.
function isAgain(film, { moment, write }) {
  const isComputed = (step) => isTurnStep(film, step) && !step.write.isMoved && !step.write.isOfDevice;
  const isOfItself = write.sources.length === 1 && write.sources[0].place === write.place && !write.constant;
  const before = isOfItself && isComputed({ moment, write }) ? lastWrite(film, write.place, moment - 1) : null;
  if (!before || !isComputed(before) || film.processor[before.moment] !== film.processor[moment]) return null;
  const one = film.turnOf(moment), other = film.turnOf(before.moment), isBlock = one.phase > 0;
  if (one.text !== other.text || isBlock !== other.phase > 0 || (!isBlock && one.p !== other.p)) return null;
  const hasBegun = isBlock && film.changeBefore(film.phases[one.n], moment - 1) > before.moment; // another block, since
  return hasBegun ? null : before;
}

// The step that wrote a place, with the steps of its sources, the latest first, up to so many. The film goes along.
function originOf(film, place, moment) {
  const known = new Map(), root = { place, parts: 0, ...lastWrite(film, place, moment) }, open = [root];
  const numberOfWrite = ({ write }) => write?.at ?? -1;
  for (let count = 0; open.length && count < MOST_STEPS;) {
    open.sort((one, other) => one.moment - other.moment || numberOfWrite(one) - numberOfWrite(other));
    const link = open.pop(), key = `${link.place} ${link.moment} ${link.parts}`;
    link.step = known.get(key);
    if (link.step) continue;
    link.step = { ...link, step: null, links: [], times: 1, earliest: link.moment };
    known.set(key, link.step);
    if (!isTurnStep(film, link.step)) continue;
    count++;
    film.goTo(link.moment);
    follow(film, link.step);
    open.push(...link.step.links);
  }
  return root;
}

// Notes the sources of a step. It is one step with those before it in which the same instruction counted the same place.
function follow(film, step) {
  for (let before = isAgain(film, step); before; before = isAgain(film, before)) {
    step.times++;
    step.earliest = before.moment;
    film.goTo(before.moment);
  }
  const sources = isOfDevice(film, step) ? [] : sourcesOf(step.write, step.parts);
  step.links = sources.map((source) => ({ ...source, ...lastWrite(film, source.place, step.earliest - 1) }));
}

// The card and the column that the reader put on its channel in a turn, or null.
export function columnOf(film, step) {
  const read = () => ({ card: film.number("CARD"), column: film.number("CARD-COLUMN") });
  return isOfDevice(film, step) && step.write.isPunched ? film.atMoment(step.moment - 1, read) : null;
}

// ---- in words

function sourceText({ place, parts }) {
  const some = range(5).filter((part) => parts & (1 << part));
  return isWord(place) && parts ? `${nameOf(place)} part ${some.join(" ")}` : nameOf(place);
}

// The constant of a write, in words; or "".
export function constantText(film, moment, { constant }) {
  const { d, m } = film.turnOf(moment), texts = { d: two(d), m: four(m), dm: two(d) + four(m) };
  if (constant in texts) return `the constant ${texts[constant]}`;
  return { return: "the return address", "no word": "zero, past the last central word" }[constant] || constant;
}

// What wrote a step's number, in words.
function causeText(film, step) {
  const { moment, write } = step, when = whenText(film, Math.max(0, moment)), column = columnOf(film, step);
  if (moment < 0) return "written in turns that were not recorded, or never";
  const wentOn = () => film.changeBefore(film.momentsThatChanged([step.place]), film.at) > 0;
  if (moment === 0) return `never written${wentOn() ? ", it only went on" : ""}`;
  if (film.kinds[moment] === LINE) return `${when}, ${lineCause(film, moment, write)}`;
  if (!write) return `${when}, the clock`;
  if (column) return `${when}, the card reader, card ${four(column.card)} column ${octal(column.column, 3)}`;
  if (isOfDevice(film, step)) return `${when}, the status of the ${film.about.devices[step.place - layout.words]}`;
  const times = step.times > 1 ? `, ${octal(step.times)} times since ${whenText(film, step.earliest)}` : "";
  const names = [...step.links.map(sourceText), constantText(film, moment, write)].filter(Boolean).join(" and ");
  const verb = write.endsBlock ? "at its end, of " : !write.isMoved ? "of " : step.links.length ? "from " : "";
  return `${when}, ${turnText(film, moment)}${times}, ${verb}${names}`;
}

// The line of the script that wrote a number, and the word in it.
function lineCause(film, moment, word) {
  const text = lineText(film, moment), line = `line ${film.lineAt(moment) + 1}`;
  if (!/^d/i.test(text)) return `${line} word ${word} (decimal) of the script: ${text}`;
  return `${line} (decimal) of the script: ${text}${word ? `, word ${word} (decimal) of the panel` : ""}`;
}

function textOfStep(film, step, isNew) {
  const place = placeAt(step.place), number = film.atMoment(Math.max(0, step.moment), () => film.text(place));
  return `${place.name} ${number}: ${isNew ? causeText(film, step) : `as above, ${whenText(film, step.moment)}`}`;
}

// The lines of the origin of a place at the moment that is shown: each a step with its depth and its text, and what it is for. The
// source at the same place goes on at the same depth. If the number is another one by now, as P that goes on, the first line has it
// too.
export function originLines(film, place) {
  const here = film.at, root = originOf(film, place.places.at(-1), here), rows = []; // the lower half stands for a whole word
  film.goTo(here);
  const todo = [{ link: root, depth: 0, after: null }], seen = new Set();
  while (todo.length) {
    const { link, depth, after } = todo.pop(), { step = null } = link, isNew = step !== null && !seen.has(step);
    const text = step ? textOfStep(film, step, isNew) : `${nameOf(link.place)}: further back`;
    const row = { step: step || link, depth, after, text, column: step && columnOf(film, step) };
    rows.push(row);
    if (!isNew) continue;
    seen.add(step);
    const same = step.links.length === 1 ? step.links : step.links.filter((one) => one.place === step.place).slice(-1);
    const others = step.links.filter((one) => !same.includes(one)).reverse();
    todo.push(...same.map((one) => ({ link: one, depth, after: row })));
    todo.push(...others.map((one) => ({ link: one, depth: depth + 1, after: row })));
  }
  const now = film.text(place), then = root.moment < 0 ? now : film.atMoment(root.moment, () => film.text(place));
  if (then !== now) rows[0].text += `; now ${now}`;
  return rows;
}
