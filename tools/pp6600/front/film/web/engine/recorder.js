// ---- a session with its numbers: what the page gets of each action is a moment with the places that it changed, and of a turn the
// links by which its numbers come from others

import { BLOCK, BUSY, CELLS, HALF, IDLE, LINE, REGISTERS, ROWS, WAITING, WATCHES, isWord, layout, setLayout,
  upperOf } from "../machine/places.js";
import { FORM } from "../machine/turns.js";
import { AFTER, packed } from "../machine/written.js";
import { STATUS } from "./library.mjs";
import { stepped } from "./stepping.js";

const MOST_RECORDED = 4096, MOST_OF_LINE = 76; // turns; places that a line overwrites
const LINKS = 4, OWN = 5, OLDS = 6, MADE = 8, LINK = 6; // which number of a turn is which; how many a turn and a link have
const WAITED = 1, PASSED = 2; // kinds of turns
const OLD = 4, LOW = 2, HIGH = 3; // an old number: its place and the number itself, each of 64 bits as two words
const CHANNEL_JUMPS = [0o64, 0o65, 0o66, 0o67];

const isAdvance = (operation) => operation >= AFTER.one && operation <= AFTER.five;

export class Recorder {
  // Moments; actions and turns in effect; the number of the latest batch of turns.
  count = 0;
  position = 0;
  turn = 0;
  latest = 0;
  isSilent = false; // while moments are performed that the page has: they are only counted

  constructor(session, { central, instructions }) {
    Object.assign(this, { session, instructions, numbers: new Int32Array(setLayout(central)) });
    // Of the places that the latest batch overwrote: the numbers that the action before left, and the number of the batch.
    Object.assign(this, { left: new Uint32Array(2 * layout.high), batch: new Uint32Array(layout.high) });
    this.beginDelivery();
    this.leap(LINE, 0, 0);
  }

  beginDelivery() { this.rows = Object.fromEntries(Object.keys(ROWS).map((name) => [name, []])); }

  // The rows of what has come since the last delivery.
  take() {
    const rows = Object.fromEntries(Object.entries(ROWS).map(([name, Kind]) => [name, new Kind(this.rows[name])]));
    this.beginDelivery();
    return rows;
  }

  endMoment(kind, processor = 0) {
    const { rows } = this;
    rows.kinds.push(kind);
    rows.position.push(this.position);
    rows.turn.push(this.turn);
    rows.processor.push(processor);
    rows.starts.push(rows.places.length);
    rows.linkStarts.push(rows.links.length);
    this.count++;
  }

  beginSilence() {
    this.isSilent = true;
    this.beginDelivery();
  }

  endSilence() {
    this.read(0, layout.high);
    this.isSilent = false;
  }

  // Counts a moment, and reads the slot and what is watched, which are in a row.
  passOver(actions, turns) {
    this.position += actions;
    this.turn += turns;
    this.read(layout.slot, 1 + WATCHES);
    this.count += Math.max(turns, 1);
  }

  // Makes turns, at most `most`. Returns how many, and whether a watch ended them.
  turns(most) {
    if (this.isSilent) return this.passTurns(most);
    const { status, made, links, olds } = this.session.recorded(Math.min(most, MOST_RECORDED), MOST_RECORDED);
    const old = new Uint32Array(olds.buffer), now = this.newNumbers(made, old);
    for (let at = 0, pair = 0, link = 0; at < made.length; at += MADE) {
      const before = this.registers(made[at]);
      for (const end = pair + made[at + OLDS]; pair < end; pair++) this.put(old[OLD * pair], now[2 * pair], now[2 * pair + 1]);
      this.endTurn(made.subarray(at, at + MADE), links.subarray(link, link += LINK * made[at + LINKS]), before);
    }
    return { count: made.length / MADE, isWatched: status === STATUS.WATCHED };
  }

  passTurns(most) {
    const made = stepped(this.session, most);
    this.passOver(made.count, made.count);
    return made;
  }

  registers(n) { return REGISTERS.map((first) => this.numbers[first + n]); }

  endTurn(made, links, before) {
    const [n, , word, kind] = made, after = this.registers(n), [p, , , phase] = before;
    const isUnmoved = before.every((one, at) => one === after[at]), isInBlock = phase || after[3];
    this.position++;
    this.turn++;
    const { words, form } = this.instructions[word >> 6], isRelative = form === FORM.TARGET, d = word & 0o77;
    const goesOn = after[0] === (p + words) % CELLS || (isRelative && (d === 0 || d === 0o77)); // a jump by no cells is a stop
    const isJump = !phase && (isRelative || CHANNEL_JUMPS.includes(word >> 6));
    this.addLinks(links, LINK * made[OWN], n, isJump ? goesOn : null);
    this.endMoment(kind === WAITED ? WAITING : isInBlock ? BLOCK : isUnmoved || kind === PASSED ? IDLE : BUSY, n);
  }

  // Adds the links of a turn, of which the first so many numbers are its processor's. Those of the clock and of the slot say
  // nothing, and that P goes on to the next instruction, or to the next cell of a block, is no write.
  addLinks(links, own, n, goesOn) {
    for (let at = 0, rest = 0, isAdded = false; at < links.length; at += LINK) {
      const place = links[at], how = links[at + 4], operation = how & 0xff, source = links[at + 3] ? -1 : links[at + 2];
      const isOfDevice = at >= own;
      if (!rest && isOfDevice) isAdded = place >= layout.states && place < layout.clock;
      else if (!rest && place === layout.P + n) isAdded = !(goesOn ?? (source === place && isAdvance(operation)));
      else if (!rest) isAdded = place < layout.phase || place >= layout.words;
      rest = how >>> 16;
      if (isAdded) this.rows.links.push(packed(place, operation, (how >> 8) & 0xff, isOfDevice, rest), source);
    }
  }

  // The number that its action left at each place of these old numbers, as two words: the old number of the next action that
  // overwrote it, or the number that is there now. If an action names a place twice, the first old number is the one that was
  // there.
  newNumbers(made, old) {
    const now = new Uint32Array(old.length / 2), { left } = this, latest = ++this.latest;
    for (let at = made.length - MADE, end = now.length / 2; at >= 0; at -= MADE) {
      const first = end - made[at + OLDS];
      for (let pair = first; pair < end; pair++) {
        const place = old[OLD * pair];
        if (this.batch[place] !== latest) left.set(this.words(place, 1), 2 * place);
        this.batch[place] = latest;
        now[2 * pair] = left[2 * place];
        now[2 * pair + 1] = left[2 * place + 1];
      }
      for (let pair = end - 1; pair >= first; pair--) {
        const place = old[OLD * pair];
        left[2 * place] = old[OLD * pair + LOW];
        left[2 * place + 1] = old[OLD * pair + HIGH];
      }
      end = first;
    }
    return now;
  }

  // A line that was performed and is an action. It is performed again, so that the library says what it overwrote.
  addLine() {
    if (this.isSilent) return this.passOver(1, 0);
    this.session.back(1);
    const { olds } = this.session.turns(1, 1, MOST_OF_LINE, "again");
    for (let at = 0; at < olds.length; at += 2) this.read(Number(olds[at]), 1);
    this.position++;
    return this.endMoment(LINE);
  }

  // Notes a BACK or FORWARD, or turns that were not recorded, by all numbers, and how many actions and turns are then in effect.
  leap(kind, position, turn) {
    Object.assign(this, { position, turn });
    if (this.isSilent) return this.passOver(0, 0);
    this.read(0, layout.high);
    return this.endMoment(kind);
  }

  // Those at places in a row, each as two words.
  words(first, count) { return new Uint32Array(this.session.numbers(first, count).buffer); }

  read(first, count) {
    const words = this.words(first, count);
    for (let at = 0; at < count; at++) this.put(first + at, words[2 * at], words[2 * at + 1]);
  }

  put(place, low, high) {
    if (!isWord(place)) return this.note(place, low);
    this.note(place, low & 0x3fffffff);
    return this.note(upperOf(place), high * 4 + (low >>> HALF));
  }

  note(place, number) {
    const { numbers, rows } = this, was = numbers[place];
    if (was === number) return;
    numbers[place] = number;
    if (this.isSilent) return;
    rows.places.push(place);
    rows.was.push(was);
    rows.now.push(number);
  }
}
