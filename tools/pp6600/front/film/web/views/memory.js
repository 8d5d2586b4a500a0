// ---- memory of a processor as numbers or as instructions; the chosen number, and where it came from

import { h, classes } from "../page/dom.js";
import { CELLS, four, range, two } from "../machine/places.js";
import { NOT_RECORDED } from "../machine/film.js";
import { hasOrigin } from "../machine/origins.js";
import { headsOf, rowsFrom } from "../machine/program.js";
import { addressName, displayCode, instructionText, lineText, makerText, meaningOf, textOfListing,
  whenText } from "../machine/words.js";
import { changesAround, formOf, rowsOf } from "../page/choice.js";
import { canSet } from "../page/setting.js";
import { PROCESSOR_CHOICES, gutter, markClass, pane, select } from "./parts.js";

const WIDE = 545; // pixels from which on there is room for display code beside numbers
const FORMS = [["numbers", "numbers"], ["instructions", "instructions"], ["text", "instructions and text"]];

function cellOf(film, marks, n, address, p) {
  const word = film.cell(n, address), at = n * CELLS + address, text = four(word);
  return h("td", { class: `${markClass(marks, [at], text)}${address === p ? " p" : ""}`, "data-cell": at, id: `c${at}` }, text);
}

const codeOf = (film, words) => h("td.code", words.map((word) => displayCode(film, word)).join(""));

function numbers(state, marks) {
  const { film, memory: { n, first }, room } = state, p = film.number("P", n), hasText = room.memory / (room.unit || 1) > WIDE;
  const head = h("tr", h("th"), range(8).map((at) => h("th", at)), hasText ? h("th.code", "display code") : null);
  return h("table.cells", h("thead", head), h("tbody", range(rowsOf(state)).map((row) => {
    const all = range(8).map((at) => (first + 8 * row + at) % CELLS);
    const cells = all.map((address) => cellOf(film, marks, n, address, p));
    return h("tr", h("th", four(all[0])), cells, hasText ? codeOf(film, all.map((address) => film.cell(n, address))) : null);
  })));
}

// A click on an address sets a breakpoint. The present instruction has a sign, and where a block transfer goes on another one.
function instructions(state, marks) {
  const { film, memory: { n, top } } = state, [p, ...block] = headsOf(film, n), hasText = formOf(state) === "text";
  return h("table.program", h("tbody", rowsFrom(film, n, top, rowsOf(state), [p, ...block]).map(({ address, words }) => {
    const text = instructionText(film, address, words), sign = address === p ? "▶" : address === block.at(-1) ? "r" : "";
    return h("tr", { class: classes({ here: address === p }) }, gutter(state, n, address, sign, four(address)),
      range(2).map((at) => (at < words.length ? cellOf(film, marks, n, (address + at) % CELLS, p) : h("td"))),
      h("td.text", { title: meaningOf(film.about, text.slice(0, 3)) }, h("b", text)),
      h("td.soft", textOfListing(film, n, address, words[0]) || addressName(film, n, address)),
      hasText ? codeOf(film, words) : null);
  })));
}

export function memoryPane(state, marks) {
  const { memory: { n, follows }, chosen } = state, as = formOf(state), isNumbers = as === "numbers";
  const more = [select("memory-of", "processor", n, PROCESSOR_CHOICES),
    h("button.small", { "data-action": "follow", "aria-pressed": String(follows), title: "memory follows the turns (o)" },
      "follow"),
    select("memory-as", "memory as", as, FORMS)];
  const active = chosen && chosen.kind === "M" ? { "aria-activedescendant": `c${chosen.places[0]}` } : {};
  return pane(state, "memory", "Memory", more,
    h("div.box", { id: "cells", "data-room": "memory", role: "grid", tabindex: 0, "aria-label": `memory of PP ${two(n)}`,
      ...active },
      isNumbers ? numbers(state, marks) : instructions(state, marks)),
    isNumbers ? null : h("p.sentence", `PP ${two(n)} ${marks.processors[n].turn.sentence}`), chosenBox(state));
}

// ---- the chosen number: what it is, who changed it last, and what comes next

function textOfChosen(state) {
  const { film, chosen } = state, { last, next, isFirst, cut } = changesAround(state);
  const by = (moment) => `by ${makerText(film, moment, chosen.places[0])}.`;
  const unknown = (which, key) => `Its ${which} change may be in turns that were not recorded: ${key} looks there.`;
  const when = last === film.at ? "Changed here" : `Last change: ${whenText(film, Math.max(last, 0))}`;
  const before = last > 0 ? `${when}, ${by(last)}` : last === NOT_RECORDED ? unknown("last", "[") : "";
  const after = next > 0 ? `${isFirst ? "First" : "Next"} change: ${whenText(film, next)}, ${by(next)}`
    : cut ? `No change before the line ${lineText(film, cut)}, which goes back.` : next === NOT_RECORDED ? unknown("next", "]")
      : `No change ${last ? "after this" : "in this run"} so far.`;
  return [before, after].filter(Boolean).join(" ");
}

function chosenBox(state) {
  const { film, chosen, origin } = state, button = (action, title, name, is) =>
    h("button", { tabindex: -1, "data-action": action, title, "aria-expanded": is }, name);
  if (!chosen) return h("p.chosen.soft", "Click a number, or move with the arrows: who changed it, and when?");
  return h("p.chosen",
    canSet(chosen) ? button("set", "another number, or an instruction (e, a double click)", "set") : null,
    hasOrigin(chosen) ? button("origin", "where it came from (c)", "came from", String(Boolean(origin))) : null,
    h("span", { "aria-live": "polite" }, h("b", chosen.name), " is ", h("b", film.text(chosen)), ". ", textOfChosen(state)));
}

// Where it came from: a click leads to a step.
export function originPane(state) {
  const { origin, film, chosen } = state;
  if (!origin || !chosen) return null;
  const step = ({ step: { moment }, depth, text }) => h("li", { style: `margin-left: ${depth}em` },
    h("button", { "data-moment": moment, disabled: moment <= 0, "aria-current": moment === film.at ? "true" : null }, text));
  return pane(state, "origin", `${chosen.name} came from`, h("button", { "data-action": "origin", title: "close (c)" }, "close"),
    h("ol.box.natural", { "aria-label": "where the number came from" }, origin.map(step)));
}
