// ---- a number that is set in its place: a text becomes the line that sets it

import { SETTABLE, four, octal, octalIn, placeWith } from "../machine/places.js";
import { FORM } from "../machine/turns.js";

const AS_SHOWN = /^(\w+) +([0-7]{1,2})(?: +([0-7]{1,4}))?$/, WITH_TARGET = /^(\w+)(?: +[0-7]+)? +TO +(\S+)$/;
export const canSet = (place) => place !== null && SETTABLE.includes(place.kind) && place.name !== "H 14";

// The line that sets a place to a text; an error says what is wrong with it.
export function settingLine(assembling, film, { kind, name, numbers }, text) {
  const state = kind === "H" ? `${film.text(placeWith("STATE", ...numbers))} ` : "", isLine = kind === "M" && /^[a-z]/i.test(text);
  return `SET ${name} ${state}${isLine ? wordsOf(assembling, film, text.toUpperCase(), ...numbers).map(four).join(" ") : text}`;
}

// The words of an instruction at a cell, as the page writes it, FNC 12 0001 or UJN TO 0105, or as a line of a source, FNC 1,12.
export function wordsOf(assembling, { about, labels }, text, n, address) {
  return assembling.wordsAt(address, inSource(about, text), labels[n]?.addresses);
}

// A text as a source has it.
function inSource({ instructions }, text) {
  const [, jump, target] = WITH_TARGET.exec(text) || [], [, name, digits = "", m] = AS_SHOWN.exec(text) || [], d = octalIn(digits);
  const { form } = instructions.find((one) => one.name === name) || {};
  if (jump) return `${jump} ${target}`;
  if (form === FORM.TARGET) return `${name} *${d < 0o40 ? "+" : "-"}${octal(d < 0o40 ? d : 0o77 - d)}`;
  if (m === undefined) return text;
  return form === FORM.CONSTANT ? `${name} ${octal(d)}${m.padStart(4, "0")}` : `${name} ${m},${digits}`;
}
