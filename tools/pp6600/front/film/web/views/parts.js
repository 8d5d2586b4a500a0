// ---- what several views use: marks, numbers, panes, icons

import { h, classes } from "../page/dom.js";
import { PROCESSORS, four, placeWith, range, two } from "../machine/places.js";

// What is marked at a moment: the places that changed, those that were read, the chosen one. And what several views need of it: the
// changes, and of each processor its next turn, for what it waits, and what is marked of it.
export function marksOf({ film, chosen, memory }) {
  const changed = new Set(film.places.subarray(film.starts[film.at], film.starts[film.at + 1]));
  const read = new Set(film.writesOf(film.at).flatMap(({ sources }) => sources.map(({ place }) => place)));
  const actor = film.isTurn(film.at) ? film.processor[film.at] : -1, slot = film.number("SLOT");
  const processors = range(PROCESSORS).map((n) => {
    const turn = film.next(n), { waits, word } = turn, acted = n === actor;
    return { n, turn, waits, is: { acted, next: n === slot, waits, idle: word === 0 && !acted, picked: n === memory.n } };
  });
  return { changed, read, chosen: chosen ? chosen.places.at(-1) : -1, changes: film.changesOf(film.at), actor, slot, processors };
}

export const markClass = ({ changed, read, chosen }, places, text) => classes({ n: true, zero: /^0+$/.test(text),
  changed: places.some((at) => changed.has(at)), read: places.some((at) => read.has(at)), chosen: chosen === places.at(-1) });

// A number, which a click chooses.
export const number = (film, marks, kind, ...indices) => numberAt(film, marks, placeWith(kind, ...indices));
export function numberAt(film, marks, place) {
  const { name, places } = place, text = film.text(place);
  return h("span", { class: markClass(marks, places, text), "data-place": name, title: name }, text);
}

// The names of processors or channels, as PP 01, PP 03 to 11.
export function namesOf(numbers, kind = "PP") {
  const firsts = numbers.filter((n) => !numbers.includes(n - 1)), lasts = numbers.filter((n) => !numbers.includes(n + 1));
  return firsts.map((n, at) => `${kind} ${two(n)}${lasts[at] > n ? ` to ${two(lasts[at])}` : ""}`).join(", ");
}

// The cell of a table at which a click sets a breakpoint, with a sign if the processor is there.
export function gutter({ breakpoints }, n, address, sign, text) {
  const point = `${n} ${address}`, isPoint = breakpoints.has(point);
  const title = `a breakpoint of PP ${two(n)} at ${four(address ?? 0)}`;
  const props = address === undefined ? {} : { "data-point": point, title, "aria-label": isPoint ? "breakpoint" : null };
  return h("td", { class: classes({ gutter: true, point: isPoint }), ...props }, sign, h("i", text));
}

// ---- panes and fields

// Of a field: no help that changes what is typed.
export const PLAIN = { autocomplete: "off", spellcheck: "false", autocapitalize: "off" };

// A list of choices.
export const select = (id, label, value, options) => h("select", { id, "aria-label": label, value: String(value) },
  options.map(([one, text]) => h("option", { value: String(one), selected: one === value }, text)));
export const PROCESSOR_CHOICES = range(PROCESSORS).map((n) => [n, `PP ${two(n)}`]);

// A pane with its heading, which folds it; but on a phone a tab is chosen to see its panes.
export function pane({ folded, look, isPhone }, name, title, more, ...body) {
  const key = `${look} ${name}`, isFolded = !isPhone && folded.has(key);
  const head = isPhone ? h("span.fold", title)
    : h("button.fold", { "data-fold": key, "aria-expanded": String(!isFolded) }, icon(isFolded ? "unfold" : "fold"), title);
  return h("section", { class: classes({ pane: true, [name]: true, folded: isFolded }), "aria-label": title },
    h("h2", head, h("span.more", more)), isFolded ? null : body);
}

// One that is as high as what it has.
export const boxPane = (state, name, title, more, ...parts) => pane(state, name, title, more, h("div.box.natural", parts));

// ---- icons: lines on a field of 16 by 16

const PATHS = {
  first: "M3 3v10M13 3L6 8l7 5z", last: "M13 3v10M3 3l7 5-7 5z",
  back: "M11 3L5 8l6 5z", step: "M5 3l6 5-6 5z",
  roundback: "M8 3L2.5 8 8 13zM13.5 3L8 8l5.5 5z", roundon: "M8 3l5.5 5L8 13zM2.5 3L8 8l-5.5 5z",
  play: "M4 2.5l9 5.5-9 5.5z", pause: "M4.5 3v10M11.5 3v10",
  lineback: "M3 4h10M3 12h6M12 12.5V7M9.7 9.3L12 7l2.3 2.3", lineon: "M3 4h6M3 12h10M12 2.5v5.5M9.7 5.7L12 8l2.3-2.3",
  changeback: "M14 8H6M9 4.5L5.5 8 9 11.5M2.5 3v10", changeon: "M2 8h8M7 4.5L10.5 8 7 11.5M13.5 3v10",
  origin: "M13 3.5a2 2 0 1 1-.1 0M4 10.5a2 2 0 1 1-.1 0M11.5 6.5L6 11.5",
  runto: "M2 8h7M6.5 5L9.5 8l-3 3M13 5.8a2.2 2.2 0 1 1-.1 0",
    watch: "M1.5 8S4 3.5 8 3.5 14.5 8 14.5 8 12 12.5 8 12.5 1.5 8 1.5 8zM8 6.2a1.8 1.8 0 1 1-.1 0",
  set: "M3 13l.7-3L10.5 3.2l2.3 2.3L6 12.3zM9 4.7L11.3 7", save: "M3 3h8l2 2v8H3zM5.5 3v3.5h4V3M5.5 13V9.5h5V13",
  help: "M5.5 6a2.5 2.5 0 1 1 3.6 2.2c-.8.4-1.1.8-1.1 1.8M8 12.6v.1", check: "M3 8.5L6.5 12 13 4",
  eye: "M2 8s2.2-3.8 6-3.8S14 8 14 8s-2.2 3.8-6 3.8S2 8 2 8z", fold: "M4 6l4 4 4-4", unfold: "M6 4l4 4-4 4",
};

export const icon = (name) => h("svg.icon", { viewBox: "0 0 16 16", "aria-hidden": "true" }, h("path", { d: PATHS[name] }));
