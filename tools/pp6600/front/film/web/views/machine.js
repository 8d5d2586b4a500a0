// ---- the processors, the channels, central memory and the exchange package

import { h, classes } from "../page/dom.js";
import { CHANNELS, CLOCK, WAITING, octal, range, two } from "../machine/places.js";
import { deviceOf, meaningOf } from "../machine/words.js";
import { isQuiet } from "../machine/film.js";
import { boxPane, namesOf, number } from "./parts.js";

const MOST_WORDS = 16, MOST_PROJECTED = 3;
const heading = (text) => h("th", { scope: "row" }, text);
const table = (...rows) => h("table", h("tbody", rows));

function processor({ film }, marks, n) {
  const { turn, waits, is } = marks.processors[n], block = `PHASE ${two(n)}`, of = (kind) => h("td", number(film, marks, kind, n));
  return h("tr", { class: classes(is), "data-processor": n },
    h("td.slot", is.next ? "▶" : ""), heading(two(n)), of("P"),
    h("td.text", { title: meaningOf(film.about, turn.name) }, h("b", turn.title), " ",
      turn.phase ? h("small", { "data-place": block, title: `${block} is ${octal(turn.phase, 4)}` }, "block") : turn.second),
    of("A"), of("Q"), h("td.wait", waits ? `H ${waits}` : ""));
}

// In a narrow or low window the processors that only pass or wait are one line, and beside the picture of a device or an exercise.
function processorsShown({ film, columns, memory, look, isPhone, isLow, tab }) {
  const isLoud = (n) => n === memory.n || !isQuiet(film.processorLanes[n]);
  const others = range(10).filter((n) => n !== memory.n && isLoud(n));
  if (look === "projector") return [memory.n, ...others].slice(0, MOST_PROJECTED).sort((one, other) => one - other);
  const hasRoom = isPhone ? tab === "processors" : columns > (film.about.pictures || look === "class" ? 3 : 2) && !isLow;
  return range(10).filter((n) => hasRoom || isLoud(n));
}

export function processorsPane(state, marks) {
  const { film } = state, all = processorsShown(state), left = range(10).filter((n) => !all.includes(n));
  const isWaiting = (n) => film.processorLanes[n].seen.has(WAITING), passing = left.filter((n) => !isWaiting(n));
  const rest = [[passing, "only passing"], [left.filter(isWaiting), "waiting"]].filter(([some]) => some.length)
    .map(([some, text]) => `${namesOf(some)}: ${text}`).join("; ");
  const heads = ["", "PP", "P", "next", "A", "Q", "waits for"].map((text) => h("th", { scope: "col" }, text));
  const next = left.includes(marks.slot) ? `, next is ${two(marks.slot)}` : "";
  return boxPane(state, "processors", "Processors", "", h("table", h("thead", h("tr", heads)),
    h("tbody", all.map((n) => processor(state, marks, n)), rest ? h("tr.idle.rest", h("td", { colspan: 7 }, rest + next)) : null)));
}

export function channelsPane(state, marks) {
  const { film } = state, all = range(CHANNELS).map((c) => ({ c, now: film.channelState(c), device: deviceOf(film, c) }));
  const isUsed = ({ c, now, device }) => now || device || film.number("H", c) || film.channelLanes[c].begins.length > 1;
  const row = ({ c, now, device }) => h("tr", { class: classes({ idle: !now }) }, heading(`H ${two(c)}`),
    h("td", number(film, marks, "STATE", c)), h("td.text", film.about.states[now][1]), h("td", number(film, marks, "H", c)),
    h("td.soft", device));
  const rest = [all.every(isUsed) ? "" : "the others are inactive; ", "clock ", number(film, marks, "H", CLOCK)];
  return boxPane(state, "channels", "Channels", "",
    table(all.filter(isUsed).map(row), h("tr.idle", h("td", { colspan: 5 }, rest))));
}

// The words that have not always been zero, and the chosen one: of very many those around the latest that changed, or around the
// chosen one.
function wordsShown({ film, chosen }, { changes }, kind, part) {
  const isOf = ({ place }) => place.kind === kind, own = chosen?.kind === kind ? chosen : changes.findLast(isOf)?.place;
  const all = [...new Set([...film.used[part], ...(own ? own.numbers : [])])].sort((one, other) => one - other);
  const at = Math.max(0, all.indexOf(own?.numbers[0]) - (MOST_WORDS >> 1));
  return { shown: all.slice(Math.min(at, Math.max(0, all.length - MOST_WORDS)), at + MOST_WORDS), isAll: all.length <= MOST_WORDS };
}

export function centralPane(state, marks) {
  const { film } = state, words = wordsShown(state, marks, "C", "central"), frame = wordsShown(state, marks, "XP", "frame");
  const word = (kind, at, digits) => [heading(octal(at, digits)), h("td", number(film, marks, kind, at))];
  const rows = (kind, { shown }, digits) => table(range(shown.length + 1 >> 1).map((row) =>
    h("tr", shown.slice(2 * row, 2 * row + 2).map((at) => word(kind, at, digits)))));
  if (!words.shown.length && !frame.shown.length) return null;
  return boxPane(state, "central", "Central memory", words.isAll ? "the other words are zero" : "words that were used",
    words.shown.length ? rows("C", words, 6) : null, frame.shown.length ? h("h3", "Exchange package") : null,
    frame.shown.length ? rows("XP", frame, 2) : null);
}
