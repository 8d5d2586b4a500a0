// ---- what is chosen and what is seen of it: a number, the windows of memory and of the run. Each function returns a change of the
// state

import { CELLS, KINDS, placeWith } from "../machine/places.js";
import { isQuiet } from "../machine/film.js";
import { headsOf, topWith } from "../machine/program.js";

export const rowsOf = ({ room }) => room.memoryRows || 16;

// How memory is shown: as it was chosen, else as numbers, but for a class that sees no source as instructions.
export const formOf = ({ memory, look, film: { sources } }) =>
  memory.as || (look === "projector" && !sources.size ? "instructions" : "numbers");

// The processor that memory follows: that of the latest turn that did more than pass, of those that do not only wait; or one that a
// line has set.
function followed({ film }, before) {
  const turns = film.processorLanes.map((lane, n) => [isQuiet(lane) ? 0 : film.changeBefore(lane.active, film.at), n]);
  const [latest, n] = turns.reduce((one, other) => (other[0] > one[0] ? other : one));
  const line = film.changeBefore(film.settings, film.at);
  if (line > latest) return film.processorSet(line);
  return latest > 0 ? n : film.count > 1 ? before : 0;
}

// The window moved, if it does not have an address: to the first cells, if these have it, else so that a third of its rows come
// before it.
function windowWith(state, n, address) {
  const { memory } = state, rows = rowsOf(state), isIn = n === memory.n && (address - memory.first + CELLS) % CELLS < 8 * rows;
  return isIn ? memory.first : address < 8 * rows ? 0 : (address - 8 * Math.min(4, Math.floor(rows / 3)) + CELLS) & 0o7770;
}

// The address that memory shows: the cell that changed, else where the processor is; or the chosen cell.
function addressSeen(state, n) {
  const { film, memory, chosen } = state;
  if (!memory.follows && chosen && chosen.kind === "M") return chosen.numbers[1];
  const isOwn = ({ place: { kind, numbers } }) => kind === "M" && numbers[0] === n;
  const changed = formOf(state) === "numbers" && film.changesOf(film.at).find(isOwn);
  return changed ? changed.place.numbers[1] : film.number("P", n);
}

// The windows of memory and of the run, moved as little as needed to have what is to be seen.
export function viewAt(state) {
  const { film, memory } = state, n = memory.follows ? followed(state, memory.n) : memory.n, address = addressSeen(state, n);
  if (memory.isHeld || memory.heldAt === film.at) return { span: spanAt(state) };
  const isNumbers = formOf(state) === "numbers", heads = isNumbers ? [] : headsOf(film, n);
  const next = { ...memory, n, first: windowWith(state, n, address) };
  if (!isNumbers) next.top = topWith(film, n, memory.top, memory.follows ? heads[1] ?? address : address, rowsOf(state), heads);
  return { memory: next, span: spanAt(state) };
}

// What is chosen, or how memory is shown, with the windows that go with it.
function seen(state, change, memory) {
  const sourceOf = state.film.sources.has(memory.n) ? memory.n : state.sourceOf;
  const next = { ...state.memory, isHeld: false, heldAt: null, ...memory };
  return { ...change, sourceOf, ...viewAt({ ...state, ...change, memory: next }) };
}

// The part of the run that is shown. The whole run has room at its end, so that its scale stays a while.
function spanAt({ film, zoom, span }) {
  const step = 1 << Math.max(0, 25 - Math.clz32(film.count)), whole = Math.max(8, Math.ceil(film.count / step) * step);
  if (!zoom || zoom >= film.count) return span.from === 0 && span.to === whole ? span : { from: 0, to: whole };
  if (span.to - span.from === zoom && film.at >= span.from && film.at < span.to) return span;
  const from = Math.max(0, Math.min(film.count - zoom, film.at - (zoom >> 1)));
  return { from, to: from + zoom };
}

// The source that is seen: that of the processor that was chosen last, of those that have one, else the first.
export const sourceSeen = ({ film: { sources }, sourceOf }) => sources.get(sourceOf) || sources.values().next().value;

export function choose(state, place) {
  const changes = place ? state.film.momentsThatChanged(place.places) : [];
  const chosen = { chosen: place, changes, origin: null, setting: null, wrong: {} }, [first] = place ? place.numbers : [];
  const isCell = place && place.kind === "M";
  return isCell ? seen(state, chosen, { n: first, follows: false, first: windowWith(state, ...place.numbers) }) : chosen;
}

// The first cells, as long as the film stays at its moment.
export const firstCells = ({ film, memory }) =>
  ({ memory: { ...memory, n: 0, follows: true, isHeld: false, heldAt: film.at, first: 0, top: 0 } });
export const follow = (state, change = {}) => seen(state, change, { follows: true });
export const chooseNone = (state) => follow(state, { chosen: null, changes: [], origin: null, setting: null });
export const chooseProcessor = (state, n) => seen({ ...state, chosen: null }, {}, { n, follows: false });
export const showAs = (state, as) => seen(state, {}, { as });

// Memory from another row on, as a wheel asks for it.
export function scrolled(state, rows) {
  const { memory } = state, far = formOf(state) === "numbers" ? 8 * rows : rows;
  return { memory: { ...memory, follows: false, isHeld: true, first: (memory.first + far + CELLS) & 0o7770,
    top: (memory.top + far + CELLS) % CELLS } };
}

// A number beside the chosen one: of a cell or a central word that with the address beside; null of another.
export function placeBeside(state, right, down) {
  const { chosen, memory, film } = state;
  if (!chosen) return placeWith("M", memory.n, film.number("P", memory.n));
  const { kind, numbers } = chosen, far = kind === "M" && formOf(state) === "numbers" ? 8 : 1, size = KINDS[kind].sizes.at(-1);
  if (kind !== "M" && kind !== "C") return null;
  return placeWith(kind, ...numbers.slice(0, -1), (numbers.at(-1) + right + far * down + size) % size);
}

// The changes around the moment that is shown: the latest; that to which "change before" goes, at the moment of a change the one
// before it; the next, which may be the first at all; and the line that goes back before there is one.
export function changesAround({ film, changes }) {
  const last = film.changeBefore(changes, film.at), { next, cut } = film.changeAfter(changes, film.at);
  const previous = last > 0 && last === film.at ? film.changeBefore(changes, film.at - 1) : last;
  const first = changes.find((moment) => moment > film.at) || 0; // though the script goes back before it
  return { last, previous, next: next || last ? next : first, isFirst: !last, cut };
}

export function toggled(set, one) {
  const next = new Set(set);
  if (!next.delete(one)) next.add(one);
  return next;
}
