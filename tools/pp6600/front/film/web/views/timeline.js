// ---- the run: a lane for each processor that does something and for each channel that is used

import { h, keeper } from "../page/dom.js";
import { scaleOf } from "../page/room.js";
import { JUMP, SKIP, WAITING, firstNot, nameOf, octal, range, two } from "../machine/places.js";
import { isQuiet } from "../machine/film.js";
import { isOfDevice } from "../machine/origins.js";
import { namesOf, select } from "./parts.js";

const STRIPE = 4; // from stripe to stripe
const KNOB = 11; // pixels below the lanes for what shows the moment
const MOST_LANES = { debug: 10, class: 10, projector: 5, phone: 4, all: 24 };
const PARTS_OF_RUN = [0o10000, 0o1000, 0o100]; // how many moments can be seen at once, if not all
const keptStills = keeper(), columnsOf = new WeakMap();

function lanesOf(film) {
  const processors = film.processorLanes.map((lane, n) =>
    ({ n, kind: "PP", lane, quiet: isQuiet(lane) && (lane.seen.has(WAITING) ? "only waiting" : "only passing") }));
  const channels = film.channelLanes.map((lane, n) => {
    const isBefore = film.firstTurn < 0 || lane.begins.at(-1) < film.firstTurn;
    return { n, kind: "H", lane, quiet: isBefore && `always ${film.about.states[lane.kinds.at(-1)][1]}` };
  });
  return [...processors, ...channels.filter(({ lane }) => lane.seen.size > (lane.seen.has(0) ? 1 : 0))]
    .map((one) => ({ ...one, name: `${one.kind} ${two(one.n)}` }));
}

// The names of lanes that are not seen, with why, as PP 01 to 11: only passing.
function quietText(lanes) {
  const kinds = new Map();
  for (const { kind, quiet, n } of lanes) kinds.set(`${kind} ${quiet}`, [...(kinds.get(`${kind} ${quiet}`) || [kind, quiet]), n]);
  return [...kinds.values()].map(([kind, quiet, ...all]) => `${namesOf(all, kind)}: ${quiet}`).join("; ");
}

// In each column of pixels the tallest kind. Only stretches that have come since are looked at.
function tallest(lane, { count }, { left, width, from, to }) {
  const key = [from, to, width, left].join(), old = columnsOf.get(lane), scale = width / (to - from), { begins, kinds } = lane;
  const made = old && old.key === key ? old : { key, columns: new Uint8Array(width + 1), looked: 0 };
  for (let at = made.looked; at < begins.length; at++) {
    const begin = Math.max(begins[at], from), end = Math.min(begins[at + 1] ?? count, to);
    const first = Math.floor((begin - from) * scale);
    const last = Math.min(width, Math.max(first + 1, Math.floor((end - from) * scale)));
    if (begin < end) for (let x = first; x < last; x++) made.columns[x] = Math.max(made.columns[x], kinds[at]);
  }
  made.looked = begins.length - 1;
  columnsOf.set(lane, made);
  return made.columns;
}

// A line passes, a hollow box waits, half a box is busy, a whole one is in a block.
function laneMarks(film, s, lane, y, high) {
  const columns = tallest(lane, film, s), stop = Math.min(s.width, Math.floor(s.pixel(film.count) - s.left));
  const paths = ["", "", "", ""];
  const heights = [1, Math.round(high * 0.45), Math.round(high * 0.6), high];
  for (let x = 0, end; x < stop; x = end) {
    for (end = x + 1; end < stop && columns[end] === columns[x];) end++;
    const kind = columns[x], tall = heights[kind], isHollow = kind === WAITING && end - x > 2 && tall > 3, top = y + high - tall;
    paths[kind] += `M${s.left + x} ${top}h${end - x}v${tall}h${x - end}z`;
    if (isHollow) paths[kind] += `M${s.left + x + 1} ${top + 1}v${tall - 2}h${end - x - 2}v${2 - tall}z`;
  }
  return paths.map((d, kind) => (d ? h("path", { class: ["passes", "half", "half", "tall"][kind], d }) : null));
}

// ---- the script, the chosen number, steps of an origin

// The lines of the script: a tick each, and its text if it fits into the moments of the line, or before the next one.
function scriptMarks(film, s, height) {
  const all = film.lines.filter(({ acts, first }) => acts && s.has(first));
  let free = 0;
  return all.map(({ text, first }, at) => {
    const x = Math.round(s.pixel(first)), isJump = film.kinds[first] === JUMP, short = text.trim().slice(0, 16);
    const wide = short.length * 7.3 * s.unit + 10, end = at + 1 < all.length ? s.pixel(all[at + 1].first) : s.pixel(film.count) + 8;
    const hasRoom = x + wide < end, sign = isJump && x >= free ? (film.jumps.get(first) < first ? "◂" : "▸") : "";
    if (!hasRoom && !sign && x < free) return null;
    free = x + (hasRoom ? wide : sign ? 9 : 2);
    return h("g", { class: isJump ? "jump" : "line" }, h("path", { d: isJump ? `M${x} 0V${height}` : `M${x} 6V${16 * s.unit}` }),
      hasRoom || sign ? h("text", { x: x + 3, y: 12 * s.unit }, hasRoom ? short : sign) : null);
  });
}

// A dashed line where turns were not recorded, with their number.
function skipMarks(film, s, height) {
  return film.breaks.filter((at) => film.kinds[at] === SKIP && s.has(at)).map((at) => {
    const x = Math.round(s.pixel(at)), text = `${octal(film.position[at] - film.position[at - 1])} turns`;
    const isLeft = x > text.length * 8 * s.unit + 70;
    const place = { x: isLeft ? x - 4 : x + 4, "text-anchor": isLeft ? "end" : "start" };
    return h("g.jump", h("path", { d: `M${x} 0V${height}` }), h("text", { ...place, y: 12 * s.unit }, text));
  });
}

// Stripes over what was taken back, and is a branch that was left.
function takenMarks(film, s, top, bottom) {
  const pixelIn = (moment) => Math.round(s.pixel(Math.max(s.from, Math.min(moment, s.to))));
  const stripes = film.takenBack().map((stretch) => stretch.map(pixelIn))
    .flatMap(([from, to]) => range(Math.ceil((to - from) / STRIPE)).map((at) => `M${from + STRIPE * at + 1} ${top}V${bottom}`));
  return h("path.taken", { d: stripes.join("") });
}

function chosenMarks(changes, s, y, high) {
  let d = "";
  for (let at = firstNot(changes.length, (one) => changes[one] < s.from); at < changes.length && changes[at] < s.to;) {
    const x = Math.floor(s.pixel(changes[at]));
    d += `M${x} ${y}h2v${high}h-2z`;
    at += firstNot(changes.length - at, (more) => s.pixel(changes[at + more]) < x + 1);
  }
  return h("path.own", { d });
}

// The steps of an origin: a dot in the lane of what wrote the number, or over the script, and lines between them.
function originMarks({ film, origin }, s, lanes, yOf) {
  const dotOf = ({ moment, write, place }) => {
    if (moment <= 0 || !s.has(moment)) return "";
    const writer = isOfDevice(film, { moment, write }) ? nameOf(place) : `PP ${two(film.processor[moment])}`;
    const lane = film.isTurn(moment) ? lanes.findIndex(({ name }) => name === writer) : -1;
    return lane >= 0 || !film.isTurn(moment) ? `${Math.round(s.pixel(moment + 0.5))} ${yOf(lane)}` : "";
  };
  const pairs = origin.map(({ step, after }) => [dotOf(step), after ? dotOf(after.step) : ""]).filter(([dot]) => dot);
  const lines = pairs.map(([dot, later]) => (later ? `M${dot}L${later}` : "")).join("");
  const dots = pairs.map(([dot]) => `M${dot}h0`).join("");
  const path = (name, d) => h("path", { class: name, d });
  return h("g.steps", ["around", "step"].map((name) => [path(name, lines), path(`${name} dots`, dots)]));
}

export function timeline(state) {
  const { film, chosen, changes, look, isPhone, origin, allLanes } = state, every = lanesOf(film), s = scaleOf(state), { unit } = s;
  const shown = every.filter(({ quiet }) => !quiet || (allLanes && !isPhone)), quiet = every.filter((one) => one.quiet);
  const lanes = shown.slice(0, MOST_LANES[allLanes ? "all" : isPhone ? "phone" : look]);
  const left = shown.slice(lanes.length).map((one) => ({ ...one, quiet: "no room" }));
  const step = Math.max(allLanes ? 9 : 11, Math.min(17, Math.round(120 / (lanes.length + 2)))) * unit, high = step - 4 * unit;
  const top = 20 * unit;
  const own = top + lanes.length * step, height = Math.ceil(own + (chosen ? step : 0) + KNOB), choice = chosen && chosen.name;
  const yOf = (n) => Math.round(n < 0 ? 10 * unit : top + n * step + high / 2);
  const name = (text, y, className = "name") => h("text", { class: className, x: 0, y }, text);
  const still = () => h("g", name("script", 13 * unit), scriptMarks(film, s, height), skipMarks(film, s, height),
    lanes.map(({ name: text, lane }, n) => h("g", name(text, top + n * step + high),
      laneMarks(film, s, lane, top + n * step, high))),
    takenMarks(film, s, top, own),
    chosen ? [name(choice.replace(/^M ../, "M"), own + high, "name mine"), chosenMarks(changes, s, own, high)] : null);
  const key = [film.count, film.lines.length, s.from, s.to, s.width, unit, choice, changes.length, lanes.length].join();
  const x = Math.round(s.pixel(film.at + 0.5)) + 0.5;
  return h("section.timeline", { "aria-label": "The run" },
    h("svg", { id: "lanes", role: "slider", tabindex: 0, "aria-label": "moment of the run", "aria-valuemin": 0,
      "aria-valuemax": film.last,
      "aria-valuenow": film.at, "aria-valuetext": `turn ${octal(film.turn[film.at])}`, height, style: `height:${height}px` },
    keptStills(film, key, still), origin ? originMarks(state, s, lanes, yOf) : null,
    s.has(film.at) ? h("g.head", h("path", { d: `M${x} ${16 * unit}V${height}` }),
      h("path.knob", { d: `M${x - 5} ${height}h10v-5l-5 -5l-5 5z` })) : null),
    isPhone ? null : foot(state, quietText([...left, ...quiet])));
}

const LEGEND = [["passes, inactive", "M0 10h14v1h-14z", "passes"], ["waits, empty", "M0 5h14v6h-14zM1 6v4h12v-4z", "half"],
  ["busy, full", "M0 4h14v7h-14z", "half"], ["block, function", "M0 0h14v11h-14z", "tall"],
  ["taken back", "M0 0h2v11h-2zM4 0h2v11h-2zM8 0h2v11h-2zM12 0h2v11h-2z", "half"]];
const legend = LEGEND.map(([text, d, kind]) => h("span", h("svg", { viewBox: "0 0 14 11" }, h("path", { d, class: kind })), text));

function foot({ film, zoom, allLanes }, quiet) {
  const sizes = PARTS_OF_RUN.filter((size) => size < film.count).map((size) => [size, `${octal(size)} turns`]);
  const sign = allLanes ? "▾" : "▸", unfold = { "data-action": "all-lanes", "aria-expanded": String(allLanes) };
  return h("p.foot", quiet ? h("button.quiet", unfold, `${sign} ${quiet}`) : h("span"),
    h("span.legend", legend, sizes.length ? select("zoom", "shown", zoom, [[0, "the whole run"], ...sizes]) : null));
}
