// ---- what hands do: one listener for each kind of event, and a table of what it finds under the hand

import { CELLS, placeWith } from "../machine/places.js";
import { UNTIL, linesIn } from "../machine/lines.js";
import { lineOfNext } from "../machine/sources.js";
import { choose, chooseNone, chooseProcessor, scrolled, showAs, sourceSeen, toggled, viewAt } from "./choice.js";
import { keep } from "./kept.js";
import { Moves } from "./moves.js";
import { momentAt } from "./room.js";
import { canSet, settingLine } from "./setting.js";
import { Part } from "./store.js";

// In each of them one button is a Tab stop, and arrows lead to the others.
const GROUPS = ".tools, .looks, .files, .tabs, .list, .tutorial ol";
const ARROWS = { ArrowLeft: -1, ArrowRight: 1, ArrowUp: -1, ArrowDown: 1 };
const byId = (id) => document.getElementById(id);

export class Hands extends Part {
  count = ""; // digits that were typed
  typed = []; // lines of the console
  recalled = 0; // which of them the field has

  constructor(store, parts, root) {
    super(store, parts);
    this.moves = new Moves(store, { session: this.session, hands: this }); // which says what has the focus
    for (const [kind, act] of Object.entries(this.events)) root.addEventListener(kind, act, { passive: kind === "wheel" });
    for (const kind of ["pointerdown", "pointermove", "pointerup", "pointercancel"]) {
      window.addEventListener(kind, ({ buttons }) => { this.state.isDown = buttons > 0; });
    }
    document.addEventListener("keydown", (event) => this.keydown(event));
    document.addEventListener("dragover", (event) => event.preventDefault());
    document.addEventListener("drop", (event) => this.drop(event));
  }

  // What each kind of event does.
  events = {
    click: (event) => this.click(event), input: (event) => this.input(event), change: (event) => this.change(event),
    submit: (event) => this.submit(event), paste: (event) => this.paste(event), dblclick: (event) => this.dblclick(event),
    pointerdown: (event) => this.pointerdown(event), pointermove: (event) => this.pointermove(event),
    focusout: (event) => this.focusout(event), wheel: (event) => this.wheel(event),
  };
  forms = { console: () => this.console(), set: () => this.set() };

  // ---- buttons and clicks

  // Performs an action of the table of keys, or of a button.
  do(name, count = 1, digits = "") {
    if (name !== "play" && this.state.playing) this.moves.play(false);
    return (this.moves.actions[name] || this.buttons[name])(count, digits);
  }

  // What buttons do that have no key.
  buttons = {
    check: () => this.exercises.check(), "begin-again": () => this.exercises.again(), load: () => this.editor.load(),
    "load-and-run": () => this.editor.loadAndRun(), edit: () => this.editor.reveal(this.state.memory.n),
    save: () => this.sharing.savePage(), "save-script": () => this.sharing.saveScript(), "copy-link": () => this.sharing.copyLink(),
    stop: () => this.session.stop(), restore: () => this.session.restore(this.state.offer.record),
    undo: () => this.session.leaveBranch(), "time-before": () => this.moves.toTimeOf(this.state.line, -1),
    "next-time": () => this.moves.toTimeOf(this.state.line, 1), "all-lanes": () => this.update({ allLanes: !this.state.allLanes }),
  };

  // What is under a click, by the names of its attributes.
  clicks = {
    action: (action) => this.do(action), fold: (name) => this.fold(name), file: (at) => this.sharing.saveFile(Number(at)),
    point: (one) => this.update({ breakpoints: toggled(this.state.breakpoints, one) }),
    cell: (at) => this.see(placeWith("M", Math.floor(at / CELLS), at % CELLS)),
    place: (name) => this.see(this.film.placeNamed(name)),
    "line-at": (at) => this.editor.toLine(...at.split(" ").map(Number)), moment: (moment) => this.moves.moveTo(Number(moment)),
    processor: (n) => this.update(chooseProcessor(this.state, Number(n))), branch: (id) => this.session.goToBranch(Number(id)),
    look: (look) => this.look(look), tab: (tab) => this.update({ tab }), exercise: (name) => this.exercises.goTo(name),
    tutorial: (at) => this.exercises.seeTutorial(Number(at)), perform: (at) => this.exercises.perform(...at.split(" ").map(Number)),
    line: (number, { shiftKey }) => this.moves.toTimeOf(Number(number), shiftKey ? -1 : 1),
    meaning: (meaning) => this.update({ meaning }), text: (name) => this.editor.setText(name),
  };

  see(place) { this.update(choose(this.state, place)); }

  click(event) {
    for (const [name, act] of Object.entries(this.clicks)) {
      const found = event.target.closest(`[data-${name}]`);
      if (found) return act(found.getAttribute(`data-${name}`), event);
    }
    return null;
  }

  fold(name) {
    const folded = toggled(this.state.folded, name);
    keep("folded", [...folded]);
    this.update({ folded });
  }

  // Another look. That of a button is kept.
  look(look, isKept = true) {
    const { exercise, exercises } = this.state;
    if (isKept) keep("look", look);
    this.update({ look, lookBefore: this.state.look });
    this.update(viewAt(this.state));
    return look === "class" && !exercise && exercises.length ? this.exercises.goTo(exercises[0].name) : null;
  }

  drop(event) {
    event.preventDefault();
    return this.sharing.takeFiles([...event.dataTransfer.files], Boolean(event.target.closest?.(".pane.editor")));
  }

  // ---- the run: to where the pointer is, as long as it is down

  pointerdown(event) {
    event.target.closest("#lanes")?.setPointerCapture(event.pointerId);
    this.pointermove(event);
  }

  pointermove({ target, pointerId, clientX }) {
    const lanes = target.closest("#lanes"), { film, playing } = this.state;
    if (!lanes?.hasPointerCapture(pointerId)) return;
    const moment = Math.max(0, Math.min(film.last, momentAt(this.state, clientX - lanes.getBoundingClientRect().left)));
    if (playing) this.moves.play(false);
    if (moment !== film.at) this.moves.moveTo(moment);
  }

  wheel({ target, deltaY }) {
    if (target.closest("#cells") && Math.abs(deltaY) >= 1) this.update(scrolled(this.state, deltaY > 0 ? 2 : -2));
  }

  submit(event) {
    event.preventDefault();
    return this.forms[event.target.dataset.form]();
  }

  async console() {
    const field = byId("typed"), text = field.value, [, , condition] = UNTIL.exec(text) || [];
    if (condition !== undefined) this.moves.condition = condition;
    this.recalled = this.typed.push(text);
    field.value = "";
    if (!(await this.session.type([text])) && !field.value) field.value = text;
  }

  // Up and down bring back what was typed before.
  recall(event) {
    event.preventDefault();
    this.recalled = Math.max(0, Math.min(this.typed.length, this.recalled + ARROWS[event.key]));
    byId("typed").value = this.typed[this.recalled] || "";
  }

  // Several lines that are pasted are several lines.
  paste(event) {
    const text = event.target.id === "typed" ? event.clipboardData.getData("text") : "";
    if (!/\n./.test(text)) return;
    event.preventDefault();
    this.session.type(linesIn(text));
  }

  change({ target }) { return this.fields[target.id]?.(target.value.trim(), target); }

  fields = {
    "memory-of": (n) => this.update(chooseProcessor(this.state, Number(n))),
    "memory-as": (as) => this.update(showAs(this.state, as)),
    "edit-for": (n) => this.editor.open(Number(n)), rate: (rate) => this.moves.setRate(Number(rate)),
    zoom: (zoom) => this.update({ zoom: Number(zoom), ...viewAt({ ...this.state, zoom: Number(zoom) }) }),
    letters: (_, { checked }) => this.update({ letters: checked }),
    place: (text) => this.placeNamed(text) && byId("place").blur(),
    turn: async (text, field) => { if (!(await this.moves.toTypedTurn(text))) field.blur(); },
  };

  // Chooses the place with a name, or none. Returns whether it could.
  placeNamed(text) {
    const { state } = this, place = text ? state.film.placeNamed(text) : null, isRight = Boolean(place) || !text;
    this.update(!isRight ? {} : place ? choose(state, place) : chooseNone(state));
    this.update({ wrong: isRight ? {} : { place: "no such place" } });
    return isRight;
  }

  input({ target: { id, value } }) {
    if (id === "source-text") this.editor.edit(value);
    if (id === "panel-text") this.exercises.typePanel(value);
  }

  select(id) { byId(id)?.select(); }

  typeLine(text) {
    const field = byId("typed");
    if (!field) return;
    field.value = text || field.value;
    field.focus();
  }

  // ---- numbers that are seen: one beside another, and one that is set in its place

  // The numbers that are seen, with their places.
  seen() {
    return [...document.querySelectorAll("td[data-cell], .n[data-place]")].filter((one) => one.checkVisibility()).map((element) => {
      const { cell, place } = element.dataset;
      return { element, place: cell ? placeWith("M", Math.floor(cell / CELLS), cell % CELLS) : this.film.placeNamed(place) };
    });
  }

  // The number before or behind another one on the page; or in its table above or below it.
  beside(chosen, right, down) {
    const all = this.seen(), at = all.findIndex(({ place }) => place === chosen), cell = all[at]?.element.closest("td");
    if (right) return at < 0 ? null : all[at + right]?.place;
    const row = cell?.parentElement[down > 0 ? "nextElementSibling" : "previousElementSibling"], other = row?.cells[cell.cellIndex];
    return other && all.find(({ element }) => other.contains(element))?.place;
  }

  // Opens a field over the chosen number, or if this is not seen over the line that has it. A cell is set in memory.
  openField() {
    const { chosen, film } = this.state, all = this.seen().filter(({ place }) => place === chosen).map(({ element }) => element);
    const one = all.find((element) => element.matches("td")) || all[0] || document.querySelector(".chosen");
    const box = one.getBoundingClientRect(), text = film.text(chosen), width = 16 + 8.6 * (text.length + 8);
    this.update({ setting: { left: Math.max(0, Math.min(box.left, innerWidth - width)), top: Math.max(0, box.top), text } });
    setTimeout(() => byId("set-to")?.select());
  }

  dblclick({ target }) { if (target.closest("[data-cell], [data-place]") && canSet(this.state.chosen)) this.openField(); }
  focusout({ target }) { if (target.id === "set-to") this.update({ setting: null }); }

  async set() {
    const { film, chosen } = this.state;
    try {
      const line = settingLine(this.editor.assembling, film, chosen, byId("set-to").value.trim());
      if (await this.session.act([line])) this.update({ setting: null });
    } catch (error) {
      this.say(error.message, true);
    }
  }

  keydown(event) {
    const { key, target } = event, isControl = event.ctrlKey || event.metaKey;
    if (isControl && key.toLowerCase() === "s") {
      event.preventDefault();
      return this.do("save");
    }
    if (isControl || event.altKey) return null;
    if (target.matches("input:not([type=checkbox]), textarea, select")) return this.keyInField(event);
    if (target.closest(GROUPS) && ARROWS[key]) return this.rove(event);
    if (target.id === "lines" && /^(ArrowUp|ArrowDown|Enter)$/.test(key)) return this.keyInSource(event);
    if (target.id === "ring" && ARROWS[key]) return this.keyInBarrel(event);
    if (target.matches("button, summary, input") && /^( |Enter)$/.test(key)) return null;
    if (target.closest("[data-box]") && /^(Arrow(Up|Down)|Page(Up|Down))$/.test(key) && target.id !== "cells") return null;
    return this.keyOfTable(event);
  }

  keyOfTable(event) {
    const { key, target } = event, action = this.state.keys.actions[key], digits = this.count;
    if ((key.length === 1 && key !== " " && !this.state.letters) || !(action || /^\d$/.test(key))) return null;
    event.preventDefault();
    if (!action) return this.addDigit(key);
    this.count = "";
    if (digits) this.say("");
    if (target.id === "lanes" && ARROWS[key]) return this.moves.moveTo(this.film.at + (/Left|Down/.test(key) ? -1 : 1));
    return action === "forget" && digits ? null : this.do(action, parseInt(digits || "1", 8), digits);
  }

  // Octal digits before a key say how often, or before the key of a turn which one.
  addDigit(digit) {
    if (digit > "7") return this.say(`${digit} is not octal`, true);
    this.count += digit;
    return this.say(`count ${this.count}`);
  }

  keyInField(event) {
    const { key, target } = event;
    if (target.id === "typed" && /^Arrow(Up|Down)$/.test(key)) return this.recall(event);
    if (target.id === "source-text" && this.editor.key(event)) return null;
    if (key === "Enter" && target.closest(".goto")) return this.change(event);
    if (key === "Escape") target.blur();
    return null;
  }

  // In the source arrows choose a line, and its cell; Enter goes to a time at which it was performed.
  keyInSource(event) {
    const source = sourceSeen(this.state), { line } = this.state, { key, shiftKey } = event;
    event.preventDefault();
    if (key === "Enter") return line ? this.moves.toTimeOf(line, shiftKey ? -1 : 1) : null;
    const next = Math.max(1, Math.min(source.lines.length, (line ?? lineOfNext(this.film, source).number) + ARROWS[key]));
    const { address } = source.lines[next - 1];
    this.update({ line: next });
    return address === undefined ? null : this.update(choose(this.state, placeWith("M", source.n, address)));
  }

  // In the barrel arrows choose the processor beside, or the channel above or below.
  keyInBarrel(event) {
    const { key, target } = event, names = [...target.querySelectorAll(".pill")].map((one) => one.dataset.place);
    event.preventDefault();
    if (/Left|Right/.test(key)) return this.do(key === "ArrowLeft" ? "processor-before" : "next-processor");
    const at = names.indexOf(this.state.chosen?.name) + ARROWS[key];
    return names.length ? this.update(choose(this.state, this.film.placeNamed(names[(at + names.length) % names.length]))) : null;
  }

  // In a toolbar arrows lead from button to button; Tab leaves it.
  rove(event) {
    const buttons = event.target.closest(GROUPS).querySelectorAll("button:not(:disabled)");
    const all = [...buttons].filter((one) => one.checkVisibility()), at = all.indexOf(event.target) + ARROWS[event.key];
    const next = all[(at + all.length) % all.length];
    event.preventDefault();
    if (next.closest(".tools")) this.update({ tool: next.dataset.action });
    next.focus();
  }
}
