// ---- what happened, in words

import { CLOCK, JUMP, LINE, SKIP, WAITING, four, layout, octal, placeAt, two } from "./places.js";
import { wordsIn } from "./lines.js";
import { NOT_RECORDED } from "./film.js";
import { lineOfMoment } from "./sources.js";
import { FORM, target } from "./turns.js";

export const displayCode = (film, word) => film.about.symbols[word >> 6] + film.about.symbols[word & 0o77];
export const deviceOf = (film, c) => (c === CLOCK ? "clock" : film.about.devices[c] || "");
export const inShort = (text, most) => (text.length > most ? `${text.slice(0, most - 3)} ..` : text);
export const lineText = (film, moment) => film.lineOf(moment).text.trim();

// An address with its name, as 0104 START+4; and the listing's text of the line that begins there if its word is there, or "".
export const addressName = (film, n, address) => (film.labels[n] && film.labels[n].names[address]) || "";
export const named = (film, n, address) => `${four(address)} ${addressName(film, n, address)}`.trim();
export function textOfListing(film, n, address, word) {
  const [listed, text] = (film.labels[n] && film.labels[n].texts && film.labels[n].texts[address]) || [];
  return listed === word ? text : "";
}

// The text of an instruction whose words are these.
export function instructionText({ about: { instructions } }, address, [word, ...more]) {
  const { name, form } = instructions[word >> 6], d = word & 0o77;
  return [name, two(d), ...more.map(four), ...(form === FORM.TARGET ? [`to ${four(target(address, d))}`] : [])].join(" ");
}

// The operation of a line of a source, which is behind the label in column 1 or 2.
export const operationIn = (line) => (/^ ?[^*\s]?\S*\s+(\S+)/.exec(line) || [])[1];

// What an instruction or a directive does, by its name; "" of another name.
export function meaningOf({ instructions, meanings }, name) {
  const code = instructions.findIndex((one) => one.name === name), x = code < 0 ? "" : meanings[`${code >> 3}x`];
  return [meanings[name], x].filter(Boolean).join("\n");
}

export const whenText = (film, moment) =>
  (film.isTurn(moment) ? `turn ${octal(film.turn[moment])}` : `before turn ${octal(film.turn[moment] + 1)}`);
const skippedText = (film, moment) => `${octal(film.position[moment] - film.position[moment - 1])} turns that were not recorded`;

// The line of a source that a turn performed, as loader.pp:9, after "was" if it has been overwritten; "" of a turn of no line.
export function lineOfSource(film, moment) {
  const { number, note } = lineOfMoment(film, moment), name = number ? film.sources.get(film.processor[moment]).name : "";
  return { text: number ? `${note === "was" ? "was " : ""}${name}:${number}` : "", note: note === "was" ? "" : note };
}

export function turnText(film, moment) {
  const n = film.processor[moment], { title, text, phase } = film.turnOf(moment), address = film.addressAt(moment);
  if (phase) return `PP ${two(n)}, in the block of ${title}${address === null ? "" : ` at ${named(film, n, address)}`}`;
  const line = lineOfSource(film, moment);
  return `PP ${two(n)}, ${text} at ${named(film, n, address)}${line.text && `, ${line.text} ${line.note}`.trimEnd()}`;
}

// Who changed a place in a moment.
export function makerText(film, moment, place) {
  if (film.kinds[moment] === SKIP) return skippedText(film, moment);
  if (!film.isTurn(moment)) return film.lineOf(moment) ? `the line ${lineText(film, moment)}` : "the beginning";
  const { kind, numbers } = placeAt(place) || { kind: "" };
  const device = kind === "H" || kind === "STATE" ? film.about.devices[numbers[0]] : "";
  if (kind === "SLOT" || place === layout.clock) return `the barrel, after PP ${two(film.processor[moment])}`;
  if (kind.startsWith("CARD")) return "the card reader";
  if (kind === "SYMBOLS" || kind.startsWith("PAPER")) return "the printer";
  return device && film.changedByDevice(moment, place) ? `the ${device}` : turnText(film, moment);
}

// What a moment was: who acted, what, and the sentence about it.
export function deedOf(film, moment) {
  const kind = film.kinds[moment], n = film.processor[moment];
  if (moment <= 0) return { who: "", what: "The beginning", says: "nothing has been performed yet" };
  if (kind === SKIP) return { who: "", what: "Not recorded", says: skippedText(film, moment) };
  if (kind < LINE) {
    const turn = film.turnOf(moment), says = film.atMoment(moment - 1, () => turn.says);
    return { who: `PP ${two(n)}`, what: turn.text, isBlock: turn.phase > 0, waits: kind === WAITING, says };
  }
  const [answer = ""] = film.lineOf(moment).answer, isLost = film.jumps.get(moment) < 0;
  const then = `; the machine is as it was then${isLost ? ", in turns that were not recorded" : ""}`;
  return { who: "console", what: lineText(film, moment), says: kind === JUMP ? answer + then : answer };
}

// ---- what a line has found: the number that changed, in which moment, and who changed it

// The latest change of the places with these names that is in effect at a moment, and the place that changed, or one that has not.
export function latestChange(film, names, moment) {
  const changeOf = ({ name, places }) => ({ name, moment: film.changeBefore(film.momentsThatChanged(places), moment) });
  const changes = names.map((name) => film.placeNamed(name)).filter(Boolean).map(changeOf);
  const [found] = changes.filter((one) => one.moment !== NOT_RECORDED).sort((one, other) => other.moment - one.moment);
  return found && { ...found, moment: found.moment > 0 ? found.moment : film.last };
}

// What a line found that ended at a watched number: the moment of the change, the name of its place, and who changed it; or null.
export function foundBy(film, { text, answer, first, moment, acts }) {
  const hit = answer.find((line) => line.startsWith("HIT ")), [command, word] = wordsIn(text);
  const name = hit && hit.split(" ").slice(1, hit.startsWith("HIT M") ? 4 : 3).join(" ");
  if (hit) return { moment, name, text: `: ${turnText(film, moment)}` };
  if (command !== "BACK" || word !== "W" || !acts) return null;
  const found = latestChange(film, film.atMoment(first - 1, () => film.watched()), first - 1);
  return found ? { ...found, text: nextText(film, found) } : null;
}

// Who is about to change a number, at the moment before it.
export const nextText = (film, { moment, name }) => `: the next ${film.isTurn(moment) ? "turn" : "line"}, `
  + `${makerText(film, moment, film.placeNamed(name).places[0])}, changes ${name}`;

// Of a search for a change: the place that changed, and who changed it; else null.
export function changeFound(film, condition) {
  const [, name, kind] = /^(.*) changes( state)?$/i.exec(condition) || [], moment = film.resolve(film.at);
  const place = name && moment > 0 ? film.placeNamed(kind ? name.replace(/^h/i, "STATE") : name) : null;
  return place && { name: place.name, text: `, by ${makerText(film, moment, place.places[0])}` };
}

// Where a film without an address opens: the moment, and the name of a place or "". If the script ends in a BACK W, the turn that
// it has found; if in a watch, or in turns that a watch has ended, the latest change of the watched number; else the end.
export function opening(film) {
  const line = film.lines.findLast(({ acts }) => acts), found = line && foundBy(film, line);
  const [command, ...words] = line ? wordsIn(line.text) : [];
  return found || (command === "WATCH" && latestChange(film, [words.join(" ")], film.last)) || { moment: film.last, name: "" };
}
