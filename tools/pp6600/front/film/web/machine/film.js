// ---- a film: the numbers of the machine are one row, and each moment has the places that it changed with their numbers before and
// after. Going to and fro computes no turn. Moments come from the worker, at the end.

import { BLOCK, BUSY, CELLS, CHANNELS, CLOCK, IDLE, JUMP, KINDS, LINE, PROCESSORS, ROWS, SKIP, WAITING, firstNot, isCentral,
  isFrame, isUpper, layout, nameOf, octal, placeAt, placeIn, placeOf, range, setLayout, watchesIn, wordOfUpper } from "./places.js";
import { growSources, sourcesOf } from "./sources.js";
import { Turn } from "./turns.js";
import { writesIn } from "./written.js";

export const NOT_RECORDED = -1; // in the place of a moment: it may lie in turns that were not recorded
const MOST_CHANGES = 40; // of a moment that are named
const isStarts = (name) => /starts$/i.test(name);
export const countUpTo = (moments, moment) => firstNot(moments.length, (at) => moments[at] <= moment);
const lastUpTo = (moments, moment) => moments[countUpTo(moments, moment) - 1] || 0;

export class Film {
  count = 0; // of the moments
  at = -1; // the one that is shown
  lines = []; // each with its answer, and the moments from its first to its last
  jumps = new Map(); // where BACK and FORWARD lead
  breaks = []; // the moments of these, and of turns that were not recorded
  settings = []; // the moments of lines that set a number of a processor
  hits = new Set(); // the last moments of lines that a watch has ended
  phases = range(PROCESSORS).map(() => []); // of each processor the moments that changed its phase
  processorLanes = range(PROCESSORS).map(() => new Lane());
  channelLanes = range(CHANNELS).map(() => new Lane());
  used = { central: new Set(), frame: new Set() }; // the words that have not always been zero
  rows = Object.fromEntries(Object.entries(ROWS).map(([name, Kind]) => [name, new Kind(isStarts(name) ? 1 : 0)])); // fields too
  highestTurn = 0;
  firstTurn = -1;

  // `about` has the options of the machine, its instructions, the labels of processors, and what is known of their sources.
  constructor(about) {
    this.numbers = new Int32Array(setLayout(about.central));
    Object.assign(this, this.rows, { about, labels: about.labels || {}, sources: sourcesOf(about) });
  }

  get last() { return this.count - 1; }
  isTurn(moment) { return this.kinds[moment] < LINE; }

  // ---- what has come

  grow({ rows, lines }) {
    const first = this.count;
    this.lines.push(...lines);
    for (const { answer, moment } of lines) if (answer.some((line) => line.startsWith("HIT "))) this.hits.add(moment);
    if (!rows.kinds.length) return;
    if (first) this.goTo(this.last);
    for (const [name, more] of Object.entries(rows)) this.rows[name] = appended(this.rows[name], more, isStarts(name));
    Object.assign(this, this.rows);
    this.count += rows.kinds.length;
    for (let moment = first; moment < this.count; moment++) this.note(moment, this.kinds[moment]);
    if (this.firstTurn < 0) this.firstTurn = this.kinds.findIndex((kind) => kind < LINE);
    this.goTo(this.last);
    growSources(this, first);
  }

  // The delivery of so many moments and lines from the beginning on, for another film.
  beginning(count, lines) {
    const ends = { places: this.starts[count], links: this.linkStarts[count] };
    const endOf = (name) => ends[name] ?? ends[{ was: "places", now: "places" }[name]] ?? count;
    const rowOf = (name) => (isStarts(name) ? this.rows[name].slice(1, count + 1) : this.rows[name].slice(0, endOf(name)));
    const rows = Object.keys(ROWS).map((name) => [name, rowOf(name)]);
    return { rows: Object.fromEntries(rows), lines: this.lines.slice(0, lines) };
  }

  // Notes what a moment is.
  note(moment, kind) {
    const { places, now, starts, turn, processor, processorLanes } = this;
    if (kind < LINE) processorLanes[processor[moment]].goOn(moment, kind);
    if (kind === JUMP) this.jumps.set(moment, this.targetOf(moment));
    if (kind >= JUMP) this.breaks.push(moment);
    if (kind === LINE && this.processorSet(moment) >= 0) this.settings.push(moment);
    if (turn[moment] > this.highestTurn) this.highestTurn = turn[moment];
    for (let at = starts[moment]; at < starts[moment + 1]; at++) {
      if (places[at] >= layout.phase) this.noteChange(moment, places[at], now[at]);
    }
  }

  noteChange(moment, place, now) {
    const c = place - layout.states, n = place - layout.phase;
    if (c >= 0 && c < CHANNELS) this.channelLanes[c].goOn(moment, now);
    if (n < PROCESSORS && this.kinds[moment] !== JUMP) this.phases[n].push(moment);
    const at = isUpper(place) ? wordOfUpper(place) : place;
    if (now && isFrame(at)) this.used.frame.add(at - layout.frame);
    if (now && isCentral(at)) this.used.central.add(at - layout.central);
  }

  // The processor whose cell or register a line has set, or -1.
  processorSet(moment) {
    const [first] = this.places.subarray(this.starts[moment], this.starts[moment + 1]);
    const { kind = "", numbers = [] } = (first >= 0 && placeAt(first)) || {};
    return ["M", "A", "P", "Q", "PHASE"].includes(kind) ? numbers[0] : -1;
  }

  // The moment to which a BACK or FORWARD leads: the latest that made the last action in effect.
  targetOf(jump) {
    const { kinds, position } = this, to = position[jump];
    for (let at = jump; at > 0; at--) {
      if (kinds[at] !== JUMP && position[at - 1] < to && to <= position[at]) return position[at] === to ? at : NOT_RECORDED;
    }
    return 0;
  }

  // ---- to and fro

  goTo(wanted) {
    const moment = Math.max(0, Math.min(this.last, wanted)), { numbers, places, was, now, starts } = this;
    for (let at = starts[this.at + 1]; at < starts[moment + 1]; at++) numbers[places[at]] = now[at];
    for (let at = starts[this.at + 1] - 1; at >= starts[moment + 1]; at--) numbers[places[at]] = was[at];
    this.at = moment;
  }

  // What a function returns at another moment.
  atMoment(moment, ask) {
    const here = this.at;
    this.goTo(moment);
    const answer = ask();
    this.goTo(here);
    return answer;
  }

  momentOfTurn(turn) { const moment = this.turn.indexOf(turn); return moment >= 0 ? moment : this.last; }

  // The moment of the turns that were not recorded and lead over a number of turns, or of actions (a row); -1 if there is none.
  skipOver(number, row = this.position) {
    return this.breaks.find((at) => this.kinds[at] === SKIP && row[at - 1] < number && number < row[at]) ?? -1;
  }

  // The nearest moment in a direction for which something holds; -1 if there is none.
  nearest(direction, holds, from = this.at) {
    let at = from + direction;
    while (at > 0 && at < this.count && !holds(at)) at += direction;
    return at > 0 && at < this.count ? at : -1;
  }

  // ---- what is in effect at a moment

  // The parts that lead to what is in effect at a moment, without what was taken back: lines, and counts of turns. Turns that a
  // watch has ended are a part of their own: it ends them again.
  partsInEffect(moment = this.at) {
    const { kinds, position, hits } = this, parts = [];
    for (let at = moment, left = position[moment]; left > 0; at--) {
      const turns = left - position[at - 1];
      if (kinds[at] === JUMP || turns <= 0) continue;
      if (kinds[at] === LINE) parts.push(this.lineOf(at).text);
      else parts.push(turns + (typeof parts.at(-1) === "number" && !hits.has(at) ? parts.pop() : 0));
      left -= turns;
    }
    return parts.reverse();
  }

  // The moment that a BACK or FORWARD leads to, else the moment itself.
  resolve(moment) { while (moment > 0 && this.kinds[moment] === JUMP) moment = this.jumps.get(moment); return moment; }

  // The stretches of moments that are not in effect at the end, as a BACK has taken them back: the first and last moment of each.
  takenBack() {
    const jumps = [...this.jumps.keys()], found = [];
    for (let jump = lastUpTo(jumps, this.last), to; jump; jump = lastUpTo(jumps, to)) {
      to = this.resolve(jump);
      if (to >= 0 && to < jump - 1) found.push([to + 1, jump]);
    }
    return found;
  }

  // The latest change in effect at a moment, of those at these moments; 0 if there is none.
  changeBefore(changes, moment) {
    let at = this.resolve(moment);
    while (at > 0) {
      const end = lastUpTo(this.breaks, at), change = lastUpTo(changes, at);
      if (change > end) return change;
      if (this.kinds[end] === SKIP) return NOT_RECORDED;
      at = this.resolve(end);
    }
    return at;
  }

  // The next change after a moment, or 0; and the line that takes that moment back before any, if one does.
  changeAfter(changes, moment) {
    const next = changes[countUpTo(changes, moment)] || 0, { breaks, kinds, position } = this;
    for (let at = countUpTo(breaks, moment); at < breaks.length && (!next || breaks[at] <= next); at++) {
      if (kinds[breaks[at]] === SKIP) return { next: NOT_RECORDED, cut: 0 };
      if (position[breaks[at]] < position[moment]) return { next: 0, cut: breaks[at] };
    }
    return { next, cut: 0 };
  }

  // The moments from a first one on that changed one of the places, in their order.
  momentsThatChanged(wanted, first = 1) {
    const { places, starts, kinds } = this, found = [];
    for (let moment = first, at = starts[first]; moment < this.count; moment++) {
      let isChanged = false;
      for (const end = starts[moment + 1]; at < end; at++) if (wanted.includes(places[at])) isChanged = true;
      if (isChanged && kinds[moment] !== JUMP) found.push(moment);
    }
    return found;
  }

  number(kind, ...indices) { return this.numbers[placeOf(kind, ...indices)]; }
  cell(n, address) { return this.numbers[n * CELLS + ((address + CELLS) % CELLS)]; }
  channelState(c) { return c === CLOCK ? 2 : this.number("STATE", c); } // the clock is always full
  placeNamed(text) { return placeIn(text, this.labels); }
  watched() { return watchesIn(this.numbers).map(nameOf); } // the names of what is watched
  text(place) { return this.textOf(place.kind, place.places.map((at) => this.numbers[at])); }

  // The text of a number, from its halves or the one number.
  textOf(kind, numbers) {
    const { digits, modes } = KINDS[kind];
    if (kind === "STATE") return this.about.states[numbers[0]][0];
    return modes ? this.about.modes[modes][numbers[0]] : numbers.map((number) => octal(number, digits / numbers.length)).join("");
  }

  // ---- what a moment did

  // The number of the line that made a moment; -1 if none has, or as long as it is performed.
  lineAt(moment) {
    const at = moment ? firstNot(this.lines.length, (one) => this.lines[one].moment < moment) : -1;
    return at < this.lines.length ? at : -1;
  }

  lineOf(moment) { return this.lines[this.lineAt(moment)]; }

  // The places that a moment changed, each with the number before and after it; none of a line that went to and fro.
  changesOf(moment) {
    const found = new Set(), end = moment && this.kinds[moment] !== JUMP ? this.starts[moment + 1] : 0;
    for (let at = this.starts[moment]; at < end && found.size < MOST_CHANGES; at++) {
      const place = placeAt(this.places[at]);
      if (place && place.kind !== "SLOT") found.add(place);
    }
    const textIn = ({ kind, places }, row) => this.textOf(kind, places.map((at) => this.numberIn(moment, at, row)));
    return [...found].map((place) => ({ place, was: textIn(place, this.was), now: textIn(place, this.now) }));
  }

  // The number of a place before or after the moment that is shown.
  numberIn(moment, place, row) {
    for (let at = this.starts[moment]; at < this.starts[moment + 1]; at++) if (this.places[at] === place) return row[at];
    return this.numbers[place];
  }

  // What a turn wrote, and from what; nothing of another moment.
  writesOf(moment) { return writesIn(this.links, this.linkStarts[moment], this.linkStarts[moment + 1]); }

  changedByDevice(moment, place) { return this.writesOf(moment).some((one) => one.place === place && one.isOfDevice); }

  // The word that a turn moved over a channel, or null.
  wordMoved(moment) {
    const isRegister = (place) => place >= layout.words && place <= layout.clock;
    for (const { place, isOfDevice, sources } of this.writesOf(moment)) {
      const from = sources.length ? sources[0].place : -1, isOutput = isRegister(place);
      if (isOfDevice || !(isOutput || isRegister(from))) continue;
      return { channel: (isOutput ? place : from) - layout.words, isOutput, word: this.numberIn(moment, place, this.now) };
    }
    return null;
  }

  // The next turn of a processor; and the turn of a moment, as it was before it.
  next(n) { return new Turn(this, n); }
  turnOf(moment) { return this.atMoment(moment - 1, () => this.next(this.processor[moment])); }

  // The address of the instruction of a next turn; in a block transfer of the one that began it, or null if that is not known.
  addressOf(turn) {
    const at = turn.phase ? this.changeBefore(this.phases[turn.n], this.at) : 0;
    if (!turn.phase) return turn.p;
    return at > 0 && this.isTurn(at) && this.processor[at] === turn.n ? this.turnOf(at).p : turn.address;
  }

  // The address of the instruction of the turn of a moment.
  addressAt(moment) { return this.atMoment(moment - 1, () => this.addressOf(this.next(this.processor[moment]))); }
}

// ---- lanes: the stretches of moments in which a processor or a channel is of one kind

class Lane {
  begins = [0];
  kinds = [IDLE];
  seen = new Set();
  active = []; // of a processor the turns in which it did more than pass

  goOn(moment, kind) {
    this.seen.add(kind);
    if (kind !== IDLE) this.active.push(moment);
    if (this.kinds.at(-1) === kind) return;
    this.begins.push(moment);
    this.kinds.push(kind);
  }
}

// A processor is quiet if it only passes or only waits.
export const isQuiet = ({ seen }) => !seen.has(BUSY) && !seen.has(BLOCK) && !(seen.has(WAITING) && seen.has(IDLE));

// A row with more behind it. The worker counts starts from the beginning of its delivery.
function appended(row, more, areStarts) {
  const base = areStarts ? row.at(-1) : 0, whole = longer(row, row.length + more.length);
  whole.set(base ? more.map((one) => one + base) : more, row.length);
  return whole;
}

// Makes a row longer. Its room doubles, so that a film may grow a little at a time.
function longer(row, size) {
  if (row.buffer.byteLength >= size * row.BYTES_PER_ELEMENT) return new row.constructor(row.buffer, 0, size);
  const more = new row.constructor(Math.max(size, 2 * row.length));
  more.set(row);
  return new row.constructor(more.buffer, 0, size);
}
