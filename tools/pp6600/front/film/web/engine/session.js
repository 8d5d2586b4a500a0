// ---- sessions of the simulator over the actions of a run: one in which lines are performed and recorded, and others in which one
// searches

import { JUMP, PROCESSORS, SKIP, layout, octal, two, watchesIn } from "../machine/places.js";
import { LONGEST_ANSWER, MOST_TURNS, actionsIn, linesIn, moveBy, partsBetween, turnsBefore, turnsIn,
  wordsIn } from "../machine/lines.js";
import { changes } from "./conditions.js";
import { Recorder } from "./recorder.js";
import { MOST_AT_ONCE, ask, sessionOf, stepped } from "./stepping.js";

const MOST_KEPT = 9999; // actions over which one looks back
const MOST_MOMENTS = 1 << 20, FULL = 5 << 18, AFTER_LONG = 0o10000;
const MOVES = { BACK: -1, FORWARD: 1 };

// What searches the parts of a run: those in effect, and behind them those that were taken back. `control` has pause(), which lets
// messages come, and isStopped().
export class Searcher {
  constructor(calls, about, control, parts = []) { Object.assign(this, { calls, about, control, parts }); }

  opened(more) { return sessionOf(this.calls, { ...this.about, ...more }); }

  // Makes turns, a batch after the other, and lets messages come between them.
  async *batches(count, make, news = null) {
    for (let left = count; left > 0;) {
      const batch = make(left);
      left -= batch.count;
      yield batch;
      await this.control.pause(news);
    }
  }

  // Performs parts in a session, up to where it is enough: this is asked after each line, and after each batch of turns.
  async replay(session, parts, make = (left) => stepped(session, left), isEnough = () => false) {
    for (const part of parts) {
      const isLine = typeof part === "string";
      if (isLine) ask(session, part);
      if (isLine && isEnough({ count: 1 })) return;
      for await (const batch of this.batches(isLine ? 0 : part, make)) if (isEnough(batch)) return;
    }
  }

  // A session in which so many actions were performed.
  async sessionAt(position) {
    const session = this.opened();
    await this.replay(session, partsBetween(this.parts, 0, position));
    return session;
  }

  // After how many actions a condition first comes to hold, in a turn from a position on, or null; and up to where one has looked.
  // After a round it is known who waits. A return is wrong if its call stored another address, so all calls are seen.
  async firstOf(condition, from) {
    const begin = condition.isOfLibrary ? from : condition.remembers ? 0 : turnsBefore(this.parts, from, PROCESSORS);
    const session = await this.sessionAt(begin);
    let at = begin, found = null;
    const make = (left) => condition.next(session, Math.min(left, MOST_AT_ONCE));
    await this.replay(session, partsBetween(this.parts, begin, Infinity), make, ({ count, isFound }) => {
      at += count;
      if (isFound && at > from) found = at;
      return found !== null || this.control.isStopped();
    });
    session.close();
    return { found, end: at };
  }

  // After how many actions a condition came to hold last, before the last of those up to a position; or null. The library looks
  // back from the end of each stretch that it keeps.
  async lastOf(condition, end) {
    const session = this.opened({ history: MOST_KEPT + 1 }), { isOfLibrary, forms } = condition;
    let at = 0, looked = 0, found = null;
    const make = (left) => (isOfLibrary ? stepped(session, Math.min(left, looked + MOST_KEPT - at))
      : condition.next(session, Math.min(left, MOST_AT_ONCE)));
    const look = () => {
      const undone = session.backUntil(forms);
      if (undone) found = at - undone;
      if (undone) session.forward(undone);
      looked = at;
    };
    await this.replay(session, partsBetween(this.parts, 0, end), make, ({ count, isFound }) => {
      at += count;
      if (isFound && at < end) found = at;
      if (isOfLibrary && (at === end || at - looked === MOST_KEPT)) look();
      return this.control.isStopped();
    });
    session.close();
    return found;
  }
}

export class Session extends Searcher {
  lines = []; // those that have come since the last delivery, with their answers and moments

  // `wanted` are first and last positions that a long STEP records too. If the page has the moments, they are not recorded.
  constructor(calls, about, control, wanted = [], isSilent = false) {
    super(calls, about, control);
    this.wanted = wanted;
    this.recorder = new Recorder(this.opened(), about);
    if (isSilent) this.recorder.beginSilence();
  }

  get simulator() { return this.recorder.session; }
  get position() { return this.recorder.position; }
  get slot() { return two(this.recorder.numbers[layout.slot]); }
  get isFull() { return this.recorder.count >= FULL; }
  checkRoom() { if (this.isFull) throw new Error(`the film is full, it has ${octal(FULL)} moments: save the script`); }
  close() { this.simulator.close(); }

  // What has come since the last delivery.
  take() { return { rows: this.recorder.take(), lines: this.lines.splice(0) }; }

  // ---- one line

  // Performs a line. Returns its answer.
  async perform(text) {
    const first = this.recorder.count, words = wordsIn(text), turns = words[0] === "STEP" ? countOf(words) : 0;
    const answer = turns ? await this.step(turns) : await this.performOther(text, words), left = answer.length - LONGEST_ANSWER;
    const kept = left <= 1 ? answer : [...answer.slice(0, LONGEST_ANSWER), `.. ${left} lines more`];
    const moment = this.recorder.count - 1, acts = moment >= first;
    if (!this.recorder.isSilent) this.lines.push({ text, answer: kept, acts, first: acts ? first : moment, moment });
    return answer;
  }

  async performOther(text, words) {
    const count = countOf(words), answer = ask(this.simulator, text), [kind, moved] = (answer[0] || "").split(" ");
    if (kind === "OK") this.add(text);
    if (kind === "OK") this.recorder.addLine();
    if (kind in MOVES) this.moved(this.position + MOVES[kind] * parseInt(moved, 8));
    const isTooFar = /^ERR (07|16)/.test(answer[0]) && count && words[0] in MOVES;
    if (isTooFar) return this.goAnew(this.position + MOVES[words[0]] * count, answer);
    if (words[0] === "BACK" && words[1] === "W" && answer[0].startsWith("ERR 10")) return this.backToChange(answer);
    return answer;
  }

  // Adds a part behind so many actions, which are in effect. What was taken back goes.
  add(part, position = this.position) { this.parts = [...partsBetween(this.parts, 0, position), part]; }

  // ---- turns

  // Makes turns, and records them, if the session does not become too long. If a watch has ended them, the last one is made once
  // more, for the simulator's answer.
  async step(turns) {
    const first = this.position;
    let isHit = false;
    for (const { count, isRecorded } of this.stretchesOf(turns)) {
      isHit = await (isRecorded ? this.recordTurns(count) : this.skipTurns(count));
      if (isHit || this.control.isStopped()) break;
    }
    const made = this.position - first;
    if (!made) return ["TURNS 0", "stopped"];
    const turnsLine = `TURNS ${octal(made)} SLOT ${this.slot}`;
    if (!isHit) return [turnsLine, ...(made < turns ? ["stopped"] : [])];
    this.simulator.back(1);
    return [turnsLine, ...ask(this.simulator, "STEP 1").slice(1)];
  }

  // How so many turns are recorded: all, or if the session would become too long the last ones and those that are wanted.
  stretchesOf(turns) {
    const begin = this.position, end = begin + turns, isShort = this.recorder.count + turns <= MOST_MOMENTS;
    const ranges = isShort ? [[begin, end]] : [...this.wanted, [end - AFTER_LONG, end]];
    const points = [begin, end, ...ranges.flat()].filter((at) => at >= begin && at <= end).sort((one, other) => one - other);
    const isRecorded = (from, to) => ranges.some(([low, high]) => low < to && from < high);
    const stretches = points.slice(1).map((to, at) => ({ count: to - points[at], isRecorded: isRecorded(points[at], to) }));
    return stretches.filter(({ count }) => count > 0);
  }

  // Returns whether a watch ended the turns.
  async recordTurns(count) {
    for await (const batch of this.batches(count, (left) => this.recorder.turns(left), this)) {
      this.add(batch.count, this.position - batch.count);
      if (batch.isWatched || this.control.isStopped()) return batch.isWatched;
    }
    return false;
  }

  // Makes turns that are not recorded; but if a watch ends them, or a hand, the last ones are.
  async skipTurns(count) {
    let made = 0, isWatched = false;
    for await (const batch of this.batches(count, (left) => stepped(this.simulator, left), this)) {
      made += batch.count;
      isWatched = batch.isWatched;
      if (isWatched || this.control.isStopped()) break;
    }
    const recorded = made < count || isWatched ? Math.min(made, AFTER_LONG, this.simulator.counts().kept) : 0;
    const skipped = made - recorded;
    this.simulator.back(recorded);
    this.add(skipped);
    this.recorder.leap(SKIP, this.position + skipped, this.recorder.turn + skipped);
    return (await this.recordTurns(recorded)) || isWatched;
  }

  // ---- back and forward, over all actions

  moved(position) { this.recorder.leap(JUMP, position, turnsIn(partsBetween(this.parts, 0, position))); }

  // Beyond what the simulator keeps: performs the parts anew up to a position, if they reach there. The answer has a second line
  // that says so.
  async goAnew(position, answer) {
    if (position < 0 || position > actionsIn(this.parts)) return answer;
    const distance = position - this.position, session = await this.sessionAt(position);
    this.close();
    this.recorder.session = session;
    this.moved(position);
    return [`${moveBy(distance)} SLOT ${this.slot}`, "replayed"];
  }

  // Beyond what the simulator keeps: the latest change of what is watched now.
  async backToChange(answer) {
    const watched = watchesIn(this.recorder.numbers);
    if (!watched.length || this.position <= this.simulator.counts().kept) return answer;
    const last = await this.lastOf(changes(watched), this.position);
    return last === null ? answer : this.goAnew(last - 1, answer);
  }
}

// The count of a line with one count at most, or 0.
function countOf(words) {
  if (words.length === 1) return 1;
  const count = words.length === 2 && /^[0-7]+$/.test(words[1]) ? parseInt(words[1], 8) : 0;
  return count <= MOST_TURNS ? count : 0;
}
