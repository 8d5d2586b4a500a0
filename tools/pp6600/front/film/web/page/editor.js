// ---- the editor of a source: what is typed is assembled and kept, and loaded by lines of the script

import { ofLines, untabbed } from "../machine/lines.js";
import { octal, two } from "../machine/places.js";
import { growSources, sourcesOf, textOfSource } from "../machine/sources.js";
import { chooseProcessor } from "./choice.js";
import { NOTE } from "./answer.js";
import { NEW_SOURCE, sourceOf } from "./assembling.js";
import { keep, kept } from "./kept.js";
import { Part } from "./store.js";

const FIELDS = [1, 10, 17, 29]; // the columns, from 0, of label, operation, operand and comment
const textField = () => document.getElementById("source-text");

// Puts a text in the place of what is selected, as if it was typed.
const typeText = (text) => document.execCommand("insertText", false, text);

// In which column the operation of a line begins; 0 of a line that has none.
const columnOfOperation = (line) => (/^ ?[^\s*]\S*\s+(?=\S)|^\s+(?=[^\s*])/.exec(untabbed(line)) || [""])[0].length;

// Begins the next line where the operation of the last line before begins that has one.
function newLine(field) {
  const before = field.value.slice(0, field.selectionStart).split("\n");
  typeText(`\n${" ".repeat(before.at(-1) ? before.map(columnOfOperation).findLast(Boolean) ?? FIELDS[1] : 0)}`);
}

// Goes to what comes next in the line, or else to the column of its next field.
function nextField(field) {
  const { value, selectionEnd: at } = field, [line] = value.slice(at).split("\n", 1), next = /^\S*\s+(?=\S)/.exec(line);
  const end = at + (next ? next[0].length : line.trimEnd().length), column = end - value.lastIndexOf("\n", end - 1) - 1;
  field.setSelectionRange(end, next ? end : at + line.length);
  if (!next) typeText(" ".repeat((FIELDS.find((one) => one > column) ?? column + 1) - column));
}

// How many words that are neither zero nor of the source that was loaded a text would overwrite with others.
export function overwritten({ film, editor: { n, rows } }) {
  const own = film.sources.get(n)?.atOrigin;
  const all = rows.flatMap(({ origin, words }) => words.map((word, at) => [origin + at, word]));
  return all.filter(([address, word]) => ![0, word, own?.get(address)?.word].includes(film.cell(n, address))).length;
}

export class Editor extends Part {
  nameOf(n) { return `draft ${this.state.exercise || "run"} ${n}`; }
  sourceOf(n) { return this.film.sources.has(n) ? textOfSource(this.film.sources.get(n)) : null; }

  // Shows a text, with what the assembler makes of it.
  show(n, text) {
    this.update({ editor: { n, text, ...this.assembling.assembled(text), texts: [...this.assembling.texts.keys()] } });
  }

  edit(text) {
    const { n } = this.state.editor;
    this.show(n, text);
    this.keepOr(keep(this.nameOf(n), text));
  }

  // Opens the source of a processor: what was typed last, or that of the film, or a new one.
  open(n) {
    const own = this.sourceOf(n);
    this.show(n, kept(this.nameOf(n)) ?? (own === null ? NEW_SOURCE : `${own}\n`));
  }

  // Opens the source of a processor where it is seen.
  reveal(n) {
    const { folded, look, lookBefore } = this.state, seen = look === "projector" ? lookBefore || "debug" : look;
    this.update({ folded: new Set([...folded].filter((name) => name !== `${seen} editor`)), tab: "editor", look: seen });
    this.open(n);
    return new Promise((done) => setTimeout(() => done(textField()?.focus())));
  }

  // Takes a text in the place of what is in the editor, as if it was typed: the browser's undo brings that back.
  async take(name, text) {
    const { n } = this.state.editor;
    await this.reveal(n);
    textField().select();
    typeText(text);
    this.say(`${name} is in the editor for PP ${two(n)}: Load loads it. Ctrl-Z there brings back what it had`);
  }

  // A text that was dropped: a system text or a common deck. Without a text the one with this name goes.
  setText(name, text = null) {
    const { texts } = this.assembling, { editor } = this.state;
    if (text === null) texts.delete(name);
    else texts.set(name, text);
    this.show(editor.n, editor.text);
    this.keepOr(keep("texts", [...texts]));
  }

  // In the text Enter begins a line, and Tab goes to the next field. Returns whether this was one of them.
  key(event) {
    const act = event.shiftKey ? null : { Enter: newLine, Tab: nextField }[event.key];
    if (act) event.preventDefault();
    act?.(event.target);
    return Boolean(act);
  }

  // To where a message is.
  toLine(line, column) {
    const field = textField(), box = field.closest("[data-box]"), high = parseFloat(getComputedStyle(field).lineHeight);
    const at = field.value.split("\n").slice(0, line - 1).join("\n").length + Math.min(1, line - 1) + column - 1;
    field.focus({ preventScroll: true });
    field.setSelectionRange(at, at + 1);
    box.scrollTop = (line - 1) * high - box.clientHeight / 3;
  }

  // Loads what was typed by lines of the script; from then on it is the source of the processor. Other words are overwritten only
  // if this was said, and is asked for again.
  async load() {
    const { editor, editor: { n, text, rows, isAsked } } = this.state, { session } = this, others = overwritten(this.state);
    if (others && !isAsked) {
      this.update({ editor: { ...editor, isAsked: true } });
      return this.say(`PP ${two(n)} has ${octal(others)} other words there: press the button again to overwrite them`, true);
    }
    if (!rows.length || !(await session.act(this.assembling.loadLines(text, n)))) return null;
    const { film } = this, made = this.loaded(n, text, rows);
    Object.assign(film.about, made);
    Object.assign(film, { labels: made.labels, sources: sourcesOf(film.about) });
    session.given = { ...session.given, ...made };
    growSources(film, 0);
    this.update({ ...chooseProcessor(this.state, n), editor: { ...editor, isAsked: false } });
    return session.keepSoon();
  }

  // Loads what was typed in the place of the source before, and performs the script again, in a session beside the one there is.
  async loadAndRun() {
    const { editor: { n, text, rows } } = this.state, { session, assembling } = this, lines = session.typedLines();
    const old = this.sourceOf(n);
    if (!rows.length) return;
    const before = old === null ? [] : assembling.loadLines(old, n), at = placeOfLines(lines, before);
    const begin = at < 0 ? lines.filter((line) => NOTE.test(line)).length : at, end = begin + (at < 0 ? 0 : before.length);
    const script = ofLines([...lines.slice(0, begin), ...assembling.loadLines(text, n), ...lines.slice(end)]);
    const made = this.loaded(n, text, rows);
    if (await session.beginBeside(`${made.sources[n].name} again`, { ...session.given, script, ...made })) this.open(n);
  }

  // The sources and labels of the film with a source in the place of that of a processor.
  loaded(n, text, rows) {
    const { about, labels } = this.film, source = sourceOf(about.sources?.[n]?.name || "typed", text, rows);
    return { sources: { ...about.sources, [n]: source }, labels: { ...labels, [n]: this.assembling.labelsOf(text, rows) } };
  }
}

// Where lines are in others, one after the other; -1 if they are not there.
function placeOfLines(lines, wanted) {
  return wanted.length ? lines.findIndex((_, at) => wanted.every((line, more) => lines[at + more] === line)) : -1;
}
