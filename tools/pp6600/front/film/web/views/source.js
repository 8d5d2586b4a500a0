// ---- the source of a processor: where it is, what this turn performed, what has been overwritten

import { h, classes, keeper } from "../page/dom.js";
import { four, octal, placeWith, two } from "../machine/places.js";
import { countUpTo } from "../machine/film.js";
import { isLoaded, lineOfMoment, lineOfNext, markOf } from "../machine/sources.js";
import { meaningOf, operationIn } from "../machine/words.js";
import { sourceSeen } from "../page/choice.js";
import { gutter, numberAt, pane } from "./parts.js";

const FIELDS = /^(.{0,9}\S*\s*)(\S*\s*)(\S*\s*)(.*)$/; // location, operation, variable, comments
const NO_MARK = { text: "", address: null }, NOT_YET = { text: "not yet", address: null };
const kept = keeper();

// A line in its fields; their words alone are struck through, so that columns stay legible. A comment that has no room beside them is
// in the next row.
function textOfLine(text) {
  if (/^\s*\*/.test(text)) return h("em", text);
  const [, label, operation, operand, comment] = FIELDS.exec(text.padEnd(1));
  const struck = (part) => part.split(/(\s+)/).map((word) => (word.trim() ? h("s", word) : word));
  return [h("span.label", struck(label)), h("b", struck(operation)), struck(operand), comment ? h("em", comment) : null];
}

function markOfLine(film, source, line) {
  if (!line.words.length) return NO_MARK;
  return isLoaded(film, line) ? markOf(film, source, line.words) : NOT_YET;
}

// The row of a line. Its description is kept as long as it stays the same, if no number is in it.
function row(state, source, line, mark, { next, done, marks }) {
  const { number, address, times } = line, isHere = number === next.number, isDone = number === done;
  const describe = () => rowOf(state, source, line, { mark, isHere, isDone, note: isHere ? next.note : "", marks });
  if (mark.address !== null || isHere) return describe();
  const isPoint = state.breakpoints.has(`${source.n} ${address}`);
  return kept(line, [mark.text, isDone, number === state.line, isPoint, times.length > 0].join(), describe);
}

function rowOf(state, { n }, { number, text, address, words, times }, { mark, isHere, isDone, note, marks }) {
  const { film } = state, hasAddress = address !== undefined, wrong = mark.address !== null && placeWith("M", n, mark.address);
  const said = wrong ? [mark.text, " ", numberAt(film, marks, wrong)] : mark.text || note;
  const title = [text.trim().replace(/\s+/g, " "), meaningOf(film.about, operationIn(text)),
    times.length ? "click: to its next time; with Shift to the one before" : ""];
  const isMine = number === state.line, seen = isHere ? `${film.at} ${n}` : isMine ? `${number}` : undefined;
  const is = { here: isHere, done: isDone, lost: mark.text === "now", unloaded: mark.text === "not yet", mine: isMine };
  return h("tr", { id: `line-${number}`, role: "option", class: classes(is), seen },
    gutter(state, n, address, isHere ? "▶" : "", number),
    hasAddress ? h("td.address", { "data-place": `M ${two(n)} ${four(address)}` }, four(address)) : h("td"),
    h("td.text", { "data-line": words.length ? number : null, title: title.filter(Boolean).join("\n"), colspan: said ? 1 : 2 },
      h("span", textOfLine(text))), said ? h("td.nowis", said) : null);
}

// How often the line that was clicked was performed, and which time is shown.
function timesOf({ film, line }, source) {
  const { times = [] } = (line && source.lines[line - 1]) || {};
  const button = (action, title, text) => h("button", { "data-action": action, title }, text);
  return times.length ? [h("span", `line ${line}: time ${octal(countUpTo(times, film.at))} of ${octal(times.length)}`),
    button("time-before", "the time before (Shift click)", "◂"), button("next-time", "the next time (click)", "▸")] : [];
}

export function sourcePane(state, marks) {
  const { film } = state, source = sourceSeen(state), edit = h("button", { "data-action": "edit", title: "in the editor" }, "edit");
  if (!source) return pane(state, "source", "Source", edit,
    h("p.empty", "No source is loaded. Write one in the editor, and load it."));
  const did = marks.actor === source.n ? lineOfMoment(film, film.at) : { number: 0, note: "" };
  const about = { next: lineOfNext(film, source), done: did.note ? 0 : did.number, marks };
  const all = source.lines.map((line) => markOfLine(film, source, line)), lost = all.filter(({ text }) => text === "now").length;
  return pane(state, "source", `Source of PP ${two(source.n)}`,
    [h("span.name", source.name), lost ? h("b.wrong", `${lost} ${lost === 1 ? "line" : "lines"} lost`) : null,
      timesOf(state, source), edit],
    h("div.box", { id: "lines", "data-box": "", tabindex: 0, role: "listbox",
      "aria-label": "lines: arrows choose one, Enter goes to its next time", "aria-activedescendant": state.line ? `line-${state.line}` : null },
      h("table", h("tbody", source.lines.map((line, at) => row(state, source, line, all[at], about))))));
}
