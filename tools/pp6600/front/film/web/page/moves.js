// ---- to and fro: what the keys of the table do. To go where the film has moments is a look; at its end turns are made

import { PROCESSORS, SETTABLE, SKIP, octal, octalIn } from "../machine/places.js";
import { countUpTo } from "../machine/film.js";
import { hasOrigin, originLines } from "../machine/origins.js";
import { lineOfNext } from "../machine/sources.js";
import { changesAround, choose, chooseNone, chooseProcessor, follow, formOf, placeBeside, showAs, sourceSeen,
  toggled, viewAt } from "./choice.js";
import { canSet } from "./setting.js";
import { Part } from "./store.js";

export const RATES = [1, 8, 64, 512, 4096]; // turns a second

export class Moves extends Part {
  condition = null; // that was looked for last

  get n() { return this.state.memory.n; }

  // Goes to a moment, as a hand asked for it.
  moveTo(moment) {
    this.film.goTo(moment);
    this.update({ said: { text: "", isWrong: false }, wrong: {}, sentLast: null, ...viewAt(this.state) });
  }

  // On so many times to where find() says; from the end of the film on by turns. So each key counts, also while turns are made.
  step(count, find, turns) {
    const { film, session } = this;
    if (session.client.isBusy) return session.type([`STEP ${octal(turns(count))}`]);
    let left = count;
    for (let next = find(); left > 0 && film.at < film.last && next >= 0; next = find(), left--) film.goTo(next);
    if (left < count || film.at < film.last) this.moveTo(left ? film.last : film.at);
    return left ? session.act([`STEP ${octal(turns(left))}`]) : null;
  }

  // Back so many times. From turns that were skipped one goes back into them.
  async back(count, find) {
    if (this.film.kinds[this.film.at] === SKIP) await this.session.unskip();
    for (let next = find(), left = count; left > 0 && next >= 0; next = find(), left--) this.film.goTo(next);
    this.moveTo(this.film.at);
  }

  // Records the turns that were skipped at the moment that is shown.
  fillSkipped() {
    const { film, session } = this;
    if (film.kinds[film.at] === SKIP && !session.client.isBusy) session.unskip();
  }

  nearestTurn(direction, n = null) {
    const { film } = this;
    return film.nearest(direction, (moment) => film.isTurn(moment) && (n === null || film.processor[moment] === n));
  }

  beforeTurn() {
    const { film } = this;
    return film.at ? Math.max(0, (film.isTurn(film.at) ? film.at : this.nearestTurn(-1)) - 1) : -1;
  }

  turnsTo(n, count) { return ((n - this.film.number("SLOT") + PROCESSORS) % PROCESSORS) + 1 + PROCESSORS * (count - 1); }

  // To a turn. Turns that were skipped are recorded for it. Says beside the field what is wrong with the number, and returns it, or
  // "".
  async toTypedTurn(text) {
    const turn = octalIn(text.trim()), { film } = this, skip = film.turn.includes(turn) ? -1 : film.skipOver(turn, film.turn);
    if (skip >= 0) await this.session.unskip(film.position[skip] - film.turn[skip] + turn);
    else if (turn !== null) this.moveTo(film.momentOfTurn(turn));
    const { highestTurn } = this.film, isThere = this.film.turn.includes(turn);
    const wrong = turn === null ? "not an octal number" : isThere ? "" : turn < highestTurn ? `turn ${octal(turn)} was not recorded`
      : `no turn ${octal(turn)}: the highest is ${octal(highestTurn)}`;
    this.update({ wrong: { turn: wrong } });
    return wrong;
  }

  // ---- changes, conditions

  toChange(direction) {
    const { chosen } = this.state, { previous, next } = changesAround(this.state), target = direction > 0 ? next : previous;
    if (!chosen) return this.say("choose a number first: click it, or type its place after g", true);
    if (target > 0) return this.moveTo(target);
    return target < 0 || direction > 0 ? this.findChange(direction < 0) : this.say("not changed before this", true);
  }

  // To a change that the film does not have: in turns that were not recorded, or in turns to come.
  findChange(isBack) {
    const { kind, name, numbers } = this.state.chosen;
    if (kind === "STATE") return this.until(`H ${octal(numbers[0])} changes state`, isBack);
    return SETTABLE.includes(kind) ? this.until(`${name} changes`, isBack) : null;
  }

  // On to where a condition comes to hold, from the newest moment; or back, from the one that is shown.
  until(condition, isBack) {
    if (!isBack) this.film.goTo(this.film.last);
    return this.session.type([`${isBack ? "back " : ""}until ${condition}`]);
  }

  // The condition that was looked for last, again.
  again(isBack) {
    if (!this.condition) return this.say("no condition was looked for", true);
    return this.session.type([`${isBack ? "back " : ""}until ${this.condition}`]);
  }

  // To before a watched number changed; if none is watched, the chosen one.
  backToChange() {
    const { chosen } = this.state;
    if (this.film.watched().length || !chosen) return this.session.type(["BACK W"]);
    const { last } = changesAround(this.state);
    return last > 0 ? this.moveTo(last - 1) : this.findChange(true);
  }

  watch() {
    const { chosen } = this.state;
    if (!chosen || !SETTABLE.includes(chosen.kind)) return this.say("choose a number first that a SET takes", true);
    return this.session.act([`${this.film.watched().includes(chosen.name) ? "UNWATCH" : "WATCH"} ${chosen.name}`]);
  }

  breakpoint() {
    const { chosen, breakpoints } = this.state;
    if (chosen?.kind !== "M") return this.say("choose a cell first, for a breakpoint", true);
    return this.update({ breakpoints: toggled(breakpoints, chosen.numbers.join(" ")) });
  }

  // On to a breakpoint or to the chosen cell, or back: in the film, else by turns that are made.
  async runTo(isBack) {
    const { chosen, breakpoints } = this.state, { film, session } = this;
    const cells = chosen && chosen.kind === "M" ? [chosen.numbers] : [];
    const points = [...[...breakpoints].map((one) => one.split(" ").map(Number)), ...cells];
    if (!points.length) return this.say("choose a cell, or click the number of a line, to run there", true);
    const condition = points.map(([n, address]) => `PP ${octal(n)} performs ${octal(address)}`).join(" or ");
    const isInFilm = isBack || film.at < film.last;
    const { at } = isInFilm ? await session.inTurn(() => session.momentOf(condition, isBack)) : { at: null };
    if (at !== null) return at < 0 || this.moveTo(at);
    return isBack ? this.say("P was not there before this", true) : this.until(condition, false);
  }

  // ---- lines of the source, of the script

  // To where the processor of the source begins its next line, or back to where it began one; at the end turns are made until it
  // does.
  toLine(direction) {
    const source = sourceSeen(this.state), { film } = this;
    if (!source) return this.say("no source is loaded", true);
    const { begun, n } = source, before = countUpTo(begun, film.at) - 1;
    const target = direction > 0 ? begun[countUpTo(begun, film.at + 1)] : before >= 0 ? begun[before] : 1;
    if (target) return this.moveTo(target - 1);
    const words = source.ofLine.get(lineOfNext(film, source).number) || [{ location: film.number("P", n) }];
    const [first, last] = [Math.min, Math.max].map((most) => octal(most(...words.map(({ location }) => location))));
    return this.until(`P ${octal(n)} outside ${first} ${last} and PP ${octal(n)} not in a block`, false);
  }

  // To the next time that a line was performed, or to the time before; after the last comes the first.
  toTimeOf(number, direction) {
    const { times } = sourceSeen(this.state).lines[number - 1], { film } = this;
    const next = times[countUpTo(times, film.at)] ?? times[0], before = times[countUpTo(times, film.at - 1) - 1] ?? times.at(-1);
    if (!times.length) return this.say(`line ${number} was not performed`, true);
    this.update({ line: number });
    return this.moveTo(direction > 0 ? next : before);
  }

  toScriptLine(direction) {
    const { film } = this, ends = film.lines.filter(({ acts }) => acts).map(({ moment }) => moment);
    this.moveTo(direction > 0 ? ends.find((end) => end > film.at) ?? film.last : ends.findLast((end) => end < film.at) ?? 0);
  }

  play(on) {
    const { film } = this, playing = on && film.at < film.last ? { since: performance.now(), from: film.at } : null;
    this.update({ playing });
    if (playing) requestAnimationFrame((time) => this.playOn(time));
  }

  playOn(time) {
    const { playing, rate } = this.state, { film } = this;
    if (!playing) return;
    const moment = Math.min(film.last, playing.from + Math.floor(((time - playing.since) / 1000) * rate));
    if (moment > film.at) this.moveTo(moment);
    if (film.at < film.last) requestAnimationFrame((next) => this.playOn(next));
    else this.update({ playing: null });
  }

  setRate(rate) {
    this.update({ rate });
    if (this.state.playing) this.play(true);
  }

  faster(step) { this.setRate(RATES[Math.max(0, Math.min(RATES.length - 1, RATES.indexOf(this.state.rate) + step))]); }

  beside(right, down) {
    const place = placeBeside(this.state, right, down) || this.hands.beside(this.state.chosen, right, down);
    if (place) this.update(choose(this.state, place));
  }

  processorBeside(distance) {
    this.update(chooseProcessor(this.state, (((this.state.memory.n + distance) % PROCESSORS) + PROCESSORS) % PROCESSORS));
  }

  origin() {
    const { chosen, origin, film } = this.state;
    if (!hasOrigin(chosen)) return this.say(chosen ? `no origin of ${chosen.name} is known` : "choose a number first", true);
    return this.update({ origin: origin ? null : originLines(film, chosen) });
  }

  forget() {
    const { help, setting } = this.state;
    this.update(help ? { help: false } : setting ? { setting: null } : chooseNone(this.state));
  }

  as(form, other) { this.update(showAs(this.state, formOf(this.state) === form ? other : form)); }

  // ---- the table of actions, by the names of the table of keys

  actions = {
    on: (count) => this.step(count, () => this.film.at + 1, (left) => left),
    back: (count) => this.back(count, () => this.film.at - 1),
    "round-on": (count) => this.step(PROCESSORS * count, () => this.nearestTurn(1), (left) => left),
    "round-back": (count) => this.back(PROCESSORS * count, () => this.beforeTurn()),
    "next-turn": (count) => this.step(count, () => this.nearestTurn(1, this.n), (left) => this.turnsTo(this.n, left)),
    "turn-before": (count) => this.back(count, () => this.nearestTurn(-1, this.n)),
    beginning: () => this.moveTo(0), newest: () => this.moveTo(this.film.last),
    "back-to-change": () => this.backToChange(), watch: () => this.watch(),
    turn: (count, digits) => (digits ? this.toTypedTurn(digits) : this.hands.select("turn")),
    until: () => this.hands.typeLine("until "), "back-until": () => this.hands.typeLine("back until "),
    again: () => this.again(false), "back-again": () => this.again(true),
    "next-change": () => this.toChange(1), "change-before": () => this.toChange(-1),
    "next-line": () => this.toLine(1), "line-before": () => this.toLine(-1),
    Left: () => this.beside(-1, 0), Right: () => this.beside(1, 0), Up: () => this.beside(0, -1), Down: () => this.beside(0, 1),
    "processor-before": (count) => this.processorBeside(-count), "next-processor": (count) => this.processorBeside(count),
    "processor-in-slot": () => this.update(chooseProcessor(this.state, this.film.number("SLOT"))),
    follow: () => this.update(follow(this.state)),
    instructions: () => this.as("numbers", "instructions"), "display-code": () => this.as("text", "instructions"),
    place: () => this.hands.select("place"), origin: () => this.origin(), line: () => this.hands.typeLine(""),
    forget: () => this.forget(),
    help: () => this.update({ help: !this.state.help }),
    play: () => this.play(!this.state.playing), faster: () => this.faster(1), slower: () => this.faster(-1),
    "script-line-before": () => this.toScriptLine(-1), "next-script-line": () => this.toScriptLine(1),
    "run-to": () => this.runTo(false), "run-back": () => this.runTo(true),
    set: () => canSet(this.state.chosen) && this.hands.openField(),
    breakpoint: () => this.breakpoint(), barrel: () => this.hands.fold(`${this.state.look} barrel`),
    projector: () => this.hands.look(this.state.look === "projector" ? this.state.lookBefore || "debug" : "projector", false),
  };
}
