// ---- the barrel: ten processors on a track, the slot, and the bus to the channels

import { h, classes } from "../page/dom.js";
import { CHANNELS, CLOCK, PROCESSORS, four, placeWith, range, two } from "../machine/places.js";
import { deviceOf } from "../machine/words.js";
import { pane } from "./parts.js";

const BOX = 50, PILL = { w: 106, h: 26 }, HALF = PROCESSORS / 2; // a processor is a square
const LEAST_WIDE = 396, HIGH = 190, LEAST_HIGH = 168, MOST_HIGH = 240;

// Where all is. Five are above from left to right, five below back: the direction in which the slot moves.
function sizes(width, high, count) {
  const right = width - PILL.w - 6, gap = Math.min(20, Math.max(3, (right - 26 - HALF * BOX) / (HALF - 1))), middle = high / 2;
  const step = Math.min(46, (high - 8) / Math.max(1, count)), hasNames = step >= 42;
  const first = middle - ((count - 1) * step) / 2 - (hasNames ? 4 : 0);
  const x = (n) => 4 + (n < HALF ? n : PROCESSORS - 1 - n) * (BOX + gap), y = (n) => (n < HALF ? 3 : high - BOX - 3);
  const end = x(HALF - 1) + BOX;
  return { right, x, y, high, middle, end, hasNames, pillY: (at) => first + at * step, pillHigh: Math.min(PILL.h, step - 2) };
}

// A processor is that of this moment; the one whose turn it was has what it did and where.
function processor(film, { n, turn, is }, { x, y }) {
  const { name, p } = is.acted ? film.turnOf(film.at) : turn, middle = BOX / 2;
  const slot = n < HALF ? `M${middle - 6} ${BOX + 10}l6 -8l6 8z` : `M${middle - 6} -10l6 8l6 -8z`;
  return h("g", { class: classes({ pp: true, ...is }), transform: `translate(${x(n)} ${y(n)})`, "data-processor": n },
    h("rect", { width: BOX, height: BOX, rx: 7 }), h("text", { x: middle, y: 14 }, two(n)),
    h("text.strong", { x: middle, y: 29 }, name),
    h("text", { x: middle, y: 44 }, four(p)), is.next ? h("path.slot", { d: slot }) : null);
}

// A way from a processor to a channel: down or up to the bus, along it, and to the pill.
function way(n, to, { x, y, right, middle, pillY, end }, level) {
  const from = x(n) + BOX / 2, begin = n < HALF ? y(n) + BOX : y(n), bus = middle + level, turn = (end + right) / 2 + 2;
  const goal = pillY(to), down = n < HALF ? 1 : -1, r = 6, side = r * Math.sign(goal - bus);
  const bend = side ? `H${turn - r}q${r} 0 ${r} ${side}V${goal - side}q0 ${side} ${r} ${side}` : "";
  return `M${from} ${begin}V${bus - down * r}q0 ${down * r} ${r} ${down * r}${bend}H${right}`;
}

// A channel. The device that changed it has a mark.
function pill(film, c, at, { right, pillY, pillHigh, hasNames }, { changes }) {
  const now = film.channelState(c), device = deviceOf(film, c), y = pillHigh / 2 + 5;
  const text = c === CLOCK || now > 1 ? four(film.number("H", c)) : now ? "empty" : "–";
  const own = changes.filter(({ place: { kind, numbers } }) => (kind === "H" || kind === "STATE") && numbers[0] === c);
  const acted = own.some(({ place }) => film.changedByDevice(film.at, place.places[0]));
  return h("g", { class: classes({ pill: true, [`is${now}`]: true, changed: own.length }), "data-place": `H ${two(c)}`,
    transform: `translate(${right} ${pillY(at) - pillHigh / 2})` },
  h("rect", { width: PILL.w, height: pillHigh, rx: pillHigh / 2 }), h("text", { x: 28, y }, `H ${two(c)}`),
  h("text.strong", { x: 76, y }, text),
  device && hasNames ? h("text", { class: classes({ device: true, acted }), x: PILL.w / 2, y: pillHigh + 13 }, device)
    : h("title", device || `channel ${two(c)}`));
}

// A text in the middle of the track, which hides what is below it.
function label({ x, end }, y, text) {
  const middle = (x(0) + end) / 2, wide = 8.6 * text.length + 6;
  return h("g", h("rect.ground", { x: middle - wide / 2, y: y - 13, width: wide, height: 17 }),
    h("text.head", { x: middle, y }, text));
}

function word({ isOutput, word: number }, n, { x, middle }) {
  const text = isOutput ? `${four(number)} ▸` : `◂ ${four(number)}`, left = (x(n) > x(2) ? x(2) : x(3)) + 20;
  return h("g.word", { transform: `translate(${left} ${middle + 12})` },
    h("rect", { x: -26, y: -11, width: 52, height: 22, rx: 4 }),
    h("text", { y: 5 }, text));
}

// The channels that have room: first those of this turn, those that are waited for, then the others that are used.
function channelsShown(film, moved, waits, high) {
  const isOf = (c) => moved?.channel === c || waits.some((one) => one.c === c);
  const isUsed = (c) => isOf(c) || film.about.devices[c] || (c < CHANNELS && film.channelLanes[c].begins.length > 1);
  const all = range(CHANNELS + 1).filter(isUsed);
  const chosen = new Set([...all.filter(isOf), ...all].slice(0, Math.floor((high - 8) / 17)));
  return all.filter((c) => chosen.has(c));
}

// In a narrow pane the picture is smaller, and on a projector it fills its pane.
function unitOf({ room, look }) {
  const unit = room.unit || 1, width = room.barrel || 430, least = Math.min(unit, width / LEAST_WIDE);
  return look === "projector" ? Math.max(least, Math.min(width / 470, (room.barrelHigh || HIGH) / 176, 2 * unit)) : least;
}

export function barrelPane(state, marks) {
  const { film, room, look, columns } = state, unit = unitOf(state), isLarge = look === "projector";
  const width = (room.barrel || 430) / unit;
  const usual = look === "class" && columns < 3 ? LEAST_HIGH : HIGH, { actor } = marks;
  const high = Math.max(LEAST_HIGH, Math.min(((isLarge && room.barrelHigh) || usual) / unit, MOST_HIGH));
  const waits = marks.processors.map(({ n, waits: text }) => ({ n, c: parseInt(text, 8) })).filter(({ c }) => c <= CLOCK);
  const moved = film.wordMoved(film.at), used = channelsShown(film, moved, waits, high), s = sizes(width, high, used.length);
  const isSeen = moved && used.includes(moved.channel), cell = marks.changes.find(({ place }) => place.kind === "M");
  const head = actor < 0 ? "" : `PP ${two(actor)}  A ${film.text(placeWith("A", actor))}  Q ${four(film.number("Q", actor))}`;
  const left = s.x(0) + 25, right = s.x(4) + 25;
  const track = `M${left} 28H${right}q22 0 22 22V${high - 50}q0 22 -22 22H${left}q-14 0 -14 -22V50q0 -22 14 -22z`;
  const wayTo = (n, c, level) => way(n, used.indexOf(c), s, level);
  return pane(state, "barrel", "Barrel", "", h("div", { class: isLarge ? "box" : "box natural", "data-room": "barrel" },
    h("svg", { viewBox: `0 0 ${width} ${high}`, style: `height:${high * unit}px`, id: "ring", role: "img", tabindex: 0,
      "aria-label": `the barrel, PP ${two(marks.slot)} is next: arrows choose a processor or a channel` },
    h("path.track", { d: track }),
    waits.filter(({ c }) => used.includes(c))
      .map(({ n, c }, at) => h("path.waits", { d: wayTo(n, c, 12 + 4 * at), "data-waits": `${n} ${c}` })),
    isSeen ? h("path.moved", { d: wayTo(actor, moved.channel, 12) }) : null, head ? label(s, s.middle - 6, head) : null,
    high > 200 && cell ? label(s, s.middle + 40, `${cell.place.name}  ${cell.was} → ${cell.now}`) : null,
    marks.processors.map((one) => processor(film, one, s)), used.map((c, at) => pill(film, c, at, s, marks)),
    isSeen ? word(moved, actor, s) : null)));
}
